//! How the Rust orders transitions of equal pre-location, action and post.

use scan_core::program_graph::ProgramGraphBuilder;
use scan_core::{TimeRange, program_graph::Clock};

/// The lower bounds of the transitions of one location and action, in the order in which the built graph has them, as
/// (post, bound): each transition is told by its bound. `posts` are the posts in the order of adding.
fn built_order(posts: &[u32]) -> Vec<(u32, u32)> {
    let mut builder = ProgramGraphBuilder::new();
    let clock: Clock = builder.new_clock();
    let locations: Vec<_> = (0..32).map(|_| builder.new_location()).collect();
    let pre = locations[0];
    let action = builder.new_action();
    for (bound, &post) in (0..).zip(posts) {
        let limits = vec![(clock, TimeRange::new(bound..))];
        let post = locations[post as usize];
        builder
            .add_timed_transition(pre, action, post, None, limits)
            .expect("known parts");
    }
    let text = format!("{:?}", builder.build());
    let mut order = Vec::new();
    for part in text.split("(Location(").skip(1) {
        let post = part
            .split(')')
            .next()
            .expect("a number")
            .parse()
            .expect("a number");
        let bound = part.split("Included(").nth(1).expect("a bound");
        let bound = bound
            .split(')')
            .next()
            .expect("a number")
            .parse()
            .expect("a number");
        order.push((post, bound));
    }
    order
}

fn as_added(posts: &[u32]) -> Vec<(u32, u32)> {
    let mut order: Vec<_> = posts.iter().copied().zip(0..).collect();
    order.sort_by_key(|&(post, _)| post);
    order
}

#[test]
fn few_stand_as_added() {
    let posts: Vec<u32> = (0..32).map(|k| (7 * k + 3) % 4).collect();
    assert_eq!(built_order(&posts), as_added(&posts));
}

#[test]
fn what_is_in_order_stands_as_added() {
    let posts: Vec<u32> = (0..128).map(|k| k / 40).collect();
    assert_eq!(built_order(&posts), as_added(&posts));
}

/// Nothing is lost, whatever the order: no answer shows it.
#[test]
fn many_are_ordered_by_post() {
    let mut built = built_order(&shuffled());
    assert!(built.is_sorted_by_key(|&(post, _)| post));
    built.sort();
    assert_eq!(built, as_added(&shuffled()));
}

#[test]
#[ignore = "shows what the standard library's unstable sort does today"]
fn many_stand_otherwise_than_added() {
    assert_ne!(built_order(&shuffled()), as_added(&shuffled()));
}

fn shuffled() -> Vec<u32> {
    (0..33).map(|k| (7 * k + 3) % 4).collect()
}
