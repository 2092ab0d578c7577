//! Lines that are no lines of the language, and lines at its edges.

use crate::graph::{Bound, Kind, Limit, expression, limits_text, posts_text};
use crate::maker::{Line, Maker};

/// Lines that stay harmless (no new part of a graph) when a token is lost or doubled.
const BASES: [&str; 41] = [
    "g var b0",
    "g clock",
    "g action",
    "g send { t }",
    "g receive 99 98",
    "g reset 99 99",
    "g effect 99 99 { v0 #1 + }",
    "g location [ 99 =1 !2 ]",
    "g process 99",
    "g initial [ 99 * * ]",
    "g transition 99 e 99 - [ 99 =0 * ]",
    "g transition 99 99 99 { t } [ ]",
    "g transition 99 99 99 -",
    "g auto 99 99 { f ! } [ 0 * =5 ]",
    "g auto 99 99 -",
    "g build",
    "r new",
    "r step 99 ( 99 99 ) 77",
    "r step e ( 99 ) 18446744073709551615",
    "r send 99 ( 99 ) 0",
    "r receive 99 ( 99 ) b1 i-7",
    "r wait 4294967295",
    "r can 0",
    "r waiting",
    "r list 0",
    "r solo 4294967295",
    "r show",
    "g kind 99",
    "r value 99",
    "r clock 99",
    "r places",
    "type { v0 #1 + } ib",
    "draws { ? ? & }",
    "eval { v0 v1 < } ( i7 i-7 ) 18446744073709551615",
    "range =1 !2 has 3",
    "range * =4294967295 shift 1",
    "range !0 * has 0",
    "poke g 46890 1",
    "sum g",
    "g new",
    "g location 7",
];

/// Whole lines, each wrong (or just right) in its own way.
const ODD: [&str; 84] = [
    "g",
    "r",
    "range",
    "poke",
    "sum",
    " ",
    "g ",
    "G new",
    "g New",
    "gnew",
    "g\tnew",
    "g new 1",
    "g var",
    "g var b2",
    "g var b",
    "g var b00",
    "g var i",
    "g var i-",
    "g var i+1",
    "g var i2147483648",
    "g var i-2147483649",
    "g var i-02147483648",
    "g var t",
    "g var 1",
    "g send {t}",
    "g send { t",
    "g send t }",
    "g send { { t } }",
    "g send { # }",
    "g send { #2147483648 }",
    "g send { #--1 }",
    "g send { v }",
    "g send { v-1 }",
    "g send { v4294967296 }",
    "g send { << }",
    "g send { t } 1",
    "g receive e",
    "g receive v0",
    "g receive -1",
    "g reset 0",
    "g reset 0 e",
    "g reset E 0",
    "g effect 0 0",
    "g effect 0 0 -",
    "g effect 0 0 { t } { t }",
    "g location [",
    "g location ]",
    "g location [ 0 =1 ]",
    "g location [ 0 1 2 ]",
    "g location [ 0 = * ]",
    "g location [ 0 =-1 * ]",
    "g location [0 * *]",
    "g transition e 0 0 -",
    "g transition 0 0 0",
    "g transition 0 0 0 [ ]",
    "g transition 0 0 0 - [ ] [ ]",
    "g auto 0 e 0 -",
    "r step 0 ( 0 )",
    "r step 0 0 0",
    "r step 0 (0) 0",
    "r step 0 ( e ) 0",
    "r step 0 ( 0:0 ) 0",
    "r receive 0 ( 0 ) t",
    "r wait",
    "r wait -1",
    "r list e",
    "g kind",
    "g kind e",
    "r value",
    "r value v0",
    "r clock -1",
    "r places 0",
    "type",
    "type { t }",
    "type { t } bo",
    "type { t } b-",
    "type { t } b i",
    "type - { t }",
    "draws { x14 }",
    "draws { ? } -",
    "eval { t } ( )",
    "eval { t } 0 ( )",
    "eval { t } ( t ) 0",
    "eval ( ) 0 { t }",
];

/// Lines that look like those of the layer above, and are none there either.
pub const ABOVE: [&str; 20] = [
    "s",
    "s new 0",
    "s graph 1",
    "s channel bi 4",
    "s channel bx sink",
    "s 0 new",
    "s 0 send { t }",
    "s build 0",
    "t",
    "t step 0 0 ( 0:0 ) 0",
    "t step 0 0:0 ( 0 ) 0",
    "t wait -1",
    "t queue 0",
    "t replay",
    "t replay 0",
    "t replay 0G",
    "t replay - 0",
    "poke s 375434 0",
    "poke t 1417 0",
    "sum r",
];

impl Maker<'_> {
    pub fn malformed(&mut self) -> Line {
        match self.chance.below(26) {
            0 => vec![],
            1..=11 => self.mutated(),
            12..=15 => self.chance.pick(&ODD).as_bytes().to_vec(),
            16..=17 => self.chance.pick(&ABOVE).as_bytes().to_vec(),
            18..=20 => self.too_many().into_bytes(),
            21 => {
                let length = *self.chance.pick(&[4095, 4096, 4097, 5000]);
                self.blown_up(length)
            }
            22 => {
                let length = *self.chance.pick(&[4095, 4096, 4097, 4098]);
                long_send(length)
            }
            23..=24 => self.wrong_number(),
            _ => self.random_bytes(),
        }
    }

    /// A valid line with one thing wrong.
    pub fn mutated(&mut self) -> Line {
        let base = *self.chance.pick(&BASES);
        let mut tokens: Vec<Vec<u8>> = base.split(' ').map(|t| t.as_bytes().to_vec()).collect();
        let at = self.chance.below(tokens.len());
        match self.chance.below(12) {
            0 => tokens[at].push(b' '),
            1 => tokens.insert(0, vec![]),
            2 => tokens.push(vec![]),
            3 => {
                tokens.remove(at);
            }
            4 => tokens.insert(at, tokens[at].clone()),
            5 => tokens[at] = b"word".to_vec(),
            6 => self.insert_byte(&mut tokens[at], 128, 255),
            7 => self.insert_byte(&mut tokens[at], 0, 0),
            8 => tokens[at].push(b'\r'),
            9 => tokens.last_mut().unwrap().push(b'\r'),
            10 => self.insert_byte(&mut tokens[at], 1, 31),
            _ => tokens[at].make_ascii_uppercase(),
        }
        let mut line = tokens.join(&b' ');
        line.retain(|b| *b != b'\n');
        line
    }

    fn insert_byte(&mut self, token: &mut Vec<u8>, low: usize, high: usize) {
        let byte = self.chance.from_to(low, high) as u8;
        let at = self.chance.below(token.len() + 1);
        token.insert(at, if byte == b'\n' { b'\t' } else { byte });
    }

    /// A number one too large, one digit too long, or just at its edge.
    fn wrong_number(&mut self) -> Line {
        let number = *self.chance.pick(&[
            "4294967295",
            "4294967296",
            "00000000001",
            "0000000001",
            "42949672950",
            "18446744073709551615",
            "-1",
            "+1",
            "1.0",
            "0x1",
            "",
            "1e1",
        ]);
        let word = *self.chance.pick(&[
            "18446744073709551615",
            "18446744073709551616",
            "99999999999999999999",
            "00000000000000000001",
            "000000000000000000001",
            "-0",
            "",
        ]);
        let line = match self.chance.below(12) {
            0 => format!("r can {number}"),
            1 => format!("r list {number}"),
            2 => format!("g process {number}"),
            3 => format!("g reset {number} 99"),
            4 => format!("range ={number} * has {number}"),
            5 => format!("r step {number} ( 99 ) 0"),
            6 => format!("r step 99 ( 99 ) {word}"),
            7 => format!("poke g {number} {word}"),
            8 => format!("r value {number}"),
            9 => format!("eval {{ v{number} }} ( i{number} ) {word}"),
            10 => format!("g kind {number}"),
            _ => format!("g effect 99 99 {{ #{number} #-{number} + v{number} }}"),
        };
        line.into_bytes()
    }

    /// Lists at and over what the language allows.
    fn too_many(&mut self) -> String {
        let limit = Limit {
            clock: 99,
            low: Bound::Absent,
            high: Bound::Absent,
        };
        match self.chance.below(10) {
            0 => {
                let count = *self.chance.pick(&[99, 100, 101]);
                let items = vec![crate::graph::Item::Nothing; count];
                format!("g send {}", expression(&items))
            }
            1 => {
                let count = *self.chance.pick(&[16, 17, 18]);
                format!("g location {}", limits_text(&vec![limit; count]))
            }
            2 => {
                let count = *self.chance.pick(&[16, 17]);
                format!("g auto 99 99 - {}", limits_text(&vec![limit; count]))
            }
            3 => {
                let count = *self.chance.pick(&[8, 9]);
                format!("r step 99 {} 0", posts_text(&vec![0; count]))
            }
            4 => format!("g send{}", " { t }".repeat(*self.chance.pick(&[5, 6, 7]))),
            8 => format!(
                "type {{ v15 }} {}",
                "i".repeat(*self.chance.pick(&[15, 16, 17]))
            ),
            9 => format!(
                "eval {{ v15 v16 = }} ({} ) 0",
                " b1".repeat(*self.chance.pick(&[15, 16, 17]))
            ),
            5 => format!("g receive{}", " 0".repeat(*self.chance.pick(&[5, 6, 7]))),
            6 => format!(
                "r receive 99 ( 99 ){}",
                " b0".repeat(*self.chance.pick(&[5, 6, 7]))
            ),
            _ => {
                let count = *self.chance.pick(&[64, 65, 100, 101]);
                let items = self.long(Kind::Int, count);
                format!("g effect 99 99 {}", expression(&items))
            }
        }
    }

    /// A line of junk of exactly so many bytes, beginning like a line.
    fn blown_up(&mut self, length: usize) -> Line {
        let mut line = self.chance.pick(&BASES).as_bytes().to_vec();
        let filler = *self.chance.pick(b" 0ax");
        line.resize(length, filler);
        line
    }

    fn random_bytes(&mut self) -> Line {
        let length = self.chance.from_to(1, 80);
        let mut line: Line = (0..length).map(|_| self.chance.word() as u8).collect();
        line.retain(|b| *b != b'\n');
        line
    }
}

/// A send line of exactly so many bytes, right in every token: refused, or a bad line by its length alone.
fn long_send(length: usize) -> Line {
    let mut line = "g send".to_string();
    for _ in 0..6 {
        line.push_str(" {");
        for _ in 0..100 {
            // Room for some more items and the end.
            if line.len() + 40 > length {
                break;
            }
            line.push_str(" #-0000000001");
        }
        if line.len() + 40 > length {
            break;
        }
        line.push_str(" }");
    }
    // Items of " #" and 1 to 10 digits, then " }".
    let mut rest = length - line.len() - 2;
    while rest > 0 {
        let part = if rest <= 12 { rest } else { 12.min(rest - 3) };
        line.push_str(&format!(" #{}", "0".repeat(part - 2)));
        rest -= part;
    }
    line.push_str(" }");
    line.into_bytes()
}

#[cfg(test)]
mod tests {
    #[test]
    fn long_sends_have_their_length() {
        for length in [4090, 4095, 4096, 4097, 4098, 4099] {
            let line = super::long_send(length);
            assert_eq!(line.len(), length);
            let text = String::from_utf8(line).unwrap();
            assert!(
                text.split(' ').all(|t| !t.is_empty()
                    && t.trim_start_matches("#-").trim_start_matches('#').len() <= 10)
            );
            assert!(text.matches('{').count() == text.matches('}').count());
        }
    }
}
