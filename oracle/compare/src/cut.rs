//! Cuts a script down to what still differs (delta debugging on lines).

use std::collections::BTreeSet;

/// `differs` gives the place of the first difference of a list, if it has one. The result differs too, and loses that when any
/// one element is left out. `sort` names the sort of an element: first whole sorts are left out, since lines that do not
/// matter mostly stand everywhere between those that do.
pub fn cut<T: Clone, S: Ord>(
    list: &[T],
    sort: impl Fn(&T) -> S,
    mut differs: impl FnMut(&[T]) -> Option<usize>,
) -> Vec<T> {
    let Some(place) = differs(list) else {
        return list.to_vec();
    };
    // What comes after the first difference is not needed.
    let mut left = upto(list, place);
    if differs(&left).is_none() {
        left = list.to_vec();
    }
    remove_sorts(&mut left, &sort, &mut differs);
    let mut size = left.len().div_ceil(2);
    while !left.is_empty() {
        let removed = remove_chunks(&mut left, size, &mut differs);
        if size == 1 && !removed {
            break;
        }
        if size > 1 {
            size = if removed {
                size.min(left.len().div_ceil(2)).max(1)
            } else {
                size.div_ceil(2)
            };
        }
    }
    left
}

fn remove_sorts<T: Clone, S: Ord>(
    left: &mut Vec<T>,
    sort: &impl Fn(&T) -> S,
    differs: &mut impl FnMut(&[T]) -> Option<usize>,
) {
    let sorts: BTreeSet<S> = left.iter().map(sort).collect();
    for gone in sorts {
        let without: Vec<T> = left
            .iter()
            .filter(|element| sort(element) != gone)
            .cloned()
            .collect();
        keep_if(left, without, differs);
    }
}

/// Takes the shorter list if it differs too.
fn keep_if<T: Clone>(
    left: &mut Vec<T>,
    without: Vec<T>,
    differs: &mut impl FnMut(&[T]) -> Option<usize>,
) -> bool {
    if without.len() == left.len() {
        return false;
    }
    let Some(place) = differs(&without) else {
        return false;
    };
    let shorter = upto(&without, place);
    *left = if shorter.len() < without.len() && differs(&shorter).is_some() {
        shorter
    } else {
        without
    };
    true
}

fn upto<T: Clone>(list: &[T], place: usize) -> Vec<T> {
    list[..list.len().min(place + 1)].to_vec()
}

/// Tries once to leave out each chunk, from the end: later lines mostly hang on earlier ones.
fn remove_chunks<T: Clone>(
    left: &mut Vec<T>,
    size: usize,
    differs: &mut impl FnMut(&[T]) -> Option<usize>,
) -> bool {
    let mut removed = false;
    let mut end = left.len();
    while end > 0 {
        let start = end.saturating_sub(size);
        let mut without = left[..start].to_vec();
        without.extend_from_slice(&left[end.min(left.len())..]);
        removed |= keep_if(left, without, differs);
        end = start.min(left.len());
    }
    removed
}

#[cfg(test)]
mod tests {
    use super::cut;

    /// Differs at the last of the wanted numbers once all of them stand there in this order.
    fn needs(wanted: &'static [u32]) -> impl FnMut(&[u32]) -> Option<usize> {
        move |list| {
            let mut seen = 0;
            for (k, n) in list.iter().enumerate() {
                if *n == wanted[seen] {
                    seen += 1;
                    if seen == wanted.len() {
                        return Some(k);
                    }
                }
            }
            None
        }
    }

    fn cut_plain(list: &[u32], differs: impl FnMut(&[u32]) -> Option<usize>) -> Vec<u32> {
        cut(list, |n| n % 7, differs)
    }

    #[test]
    fn only_what_is_needed_stays() {
        let list: Vec<u32> = (0..500).collect();
        assert_eq!(cut_plain(&list, needs(&[3])), [3]);
        assert_eq!(cut_plain(&list, needs(&[0, 250, 499])), [0, 250, 499]);
        assert_eq!(
            cut_plain(&list, needs(&[17, 18, 19, 400])),
            [17, 18, 19, 400]
        );
    }

    #[test]
    fn counted_elements_stay() {
        // Differs at the tenth even number.
        let list: Vec<u32> = (0..300).collect();
        let tenth = |list: &[u32]| {
            list.iter()
                .enumerate()
                .filter(|(_, n)| *n % 2 == 0)
                .nth(9)
                .map(|(k, _)| k)
        };
        assert_eq!(cut_plain(&list, tenth).len(), 10);
    }

    #[test]
    fn a_list_without_difference_stays() {
        assert_eq!(cut_plain(&[1, 2, 3], |_| None), [1, 2, 3]);
    }

    #[test]
    fn one_line_is_enough() {
        assert_eq!(cut_plain(&[5], needs(&[5])), [5]);
    }

    #[test]
    fn it_takes_few_trials() {
        let list: Vec<u32> = (0..250).collect();
        let mut trials = 0;
        let mut inner = needs(&[10, 100, 200]);
        cut_plain(&list, |l| {
            trials += 1;
            inner(l)
        });
        assert!(trials < 120, "{trials} trials");
    }
}
