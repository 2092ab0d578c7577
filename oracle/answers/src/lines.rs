//! Cuts input that comes in pieces into lines.

/// The longest line, without its end.
pub const LONGEST: usize = 4096;

/// What was read of a line that has not ended yet. Of a line that is too long, only that it is.
#[derive(Default)]
pub struct Lines {
    line: Vec<u8>,
    too_long: bool,
}

impl Lines {
    /// Hands on each line that ends in this piece; none for one that is too long.
    pub fn piece<E>(
        &mut self,
        mut piece: &[u8],
        mut each: impl FnMut(Option<&[u8]>) -> Result<(), E>,
    ) -> Result<(), E> {
        while let Some(end) = piece.iter().position(|&byte| byte == b'\n') {
            self.more(&piece[..end]);
            self.end(&mut each)?;
            piece = &piece[end + 1..];
        }
        self.more(piece);
        Ok(())
    }

    /// Hands on the last line, where it lacks its end.
    pub fn last<E>(
        &mut self,
        mut each: impl FnMut(Option<&[u8]>) -> Result<(), E>,
    ) -> Result<(), E> {
        if self.line.is_empty() && !self.too_long {
            return Ok(());
        }
        self.end(&mut each)
    }

    fn more(&mut self, bytes: &[u8]) {
        if self.too_long || self.line.len() + bytes.len() > LONGEST {
            self.too_long = true;
            self.line.clear();
        } else {
            self.line.extend_from_slice(bytes);
        }
    }

    fn end<E>(&mut self, each: &mut impl FnMut(Option<&[u8]>) -> Result<(), E>) -> Result<(), E> {
        let line = (!self.too_long).then_some(self.line.as_slice());
        let result = each(line);
        self.line.clear();
        self.too_long = false;
        result
    }
}

#[cfg(test)]
mod tests {
    use super::*;

    fn cut(pieces: &[&[u8]]) -> Vec<Option<Vec<u8>>> {
        let mut lines = Lines::default();
        let mut got = Vec::new();
        let mut each = |line: Option<&[u8]>| {
            got.push(line.map(<[u8]>::to_vec));
            Ok::<(), ()>(())
        };
        for piece in pieces {
            lines.piece(piece, &mut each).unwrap();
        }
        lines.last(&mut each).unwrap();
        got
    }

    #[test]
    fn lines_come_in_pieces() {
        let some = |text: &str| Some(text.as_bytes().to_vec());
        assert_eq!(cut(&[]), []);
        assert_eq!(cut(&[b"\n\n"]), [some(""), some("")]);
        assert_eq!(cut(&[b"ab", b"c\nd", b"", b"e"]), [some("abc"), some("de")]);
    }

    #[test]
    fn a_line_over_4096_bytes_is_one_line() {
        let full = vec![b'a'; LONGEST];
        assert_eq!(cut(&[&full, b"\n"]), [Some(full.clone())]);
        assert_eq!(
            cut(&[&full, b"a", &full, b"\nb"]),
            [None, Some(b"b".to_vec())]
        );
        assert_eq!(cut(&[&full, &full]), [None]);
    }
}
