//! Scripts about systems, put to the oracle in this process: the Rust and the rules have to agree at each line.

use answers::oracle::Oracle;
use compare::maker::Teller;
use compare::system_script::system_script;
use compare::table::{Answer, Table};

struct Told {
    oracle: Oracle,
    table: Table,
    /// Questions that the script does not keep count too.
    asked: usize,
}

impl Teller for Told {
    fn ask(&mut self, line: &[u8]) -> Option<String> {
        let reply = self
            .oracle
            .answer(Some(line))
            .unwrap_or_else(|disagreement| {
                panic!("{}: {}", String::from_utf8_lossy(line), disagreement.0)
            });
        let answer = reply.answer.to_string();
        self.table.add(&line.to_vec(), None, answer.as_bytes());
        self.asked += 1;
        Some(answer)
    }
}

#[test]
fn the_rust_and_the_rules_agree_on_systems() {
    let mut told = Told {
        oracle: Oracle::new(false),
        table: Table::default(),
        asked: 0,
    };
    for seed in 0..150 {
        system_script(seed, &mut told);
    }
    assert!(told.asked > 50_000);
    let pairs = told.table.pairs();
    for number in (17..=25).chain([7, 8, 26, 27, 32]) {
        assert!(
            pairs.contains(&("t step", Answer::Refused(number))),
            "{number}"
        );
    }
    for (call, number) in [
        ("t wait", 9),
        ("t wait", 26),
        ("s channel", 31),
        ("s send", 30),
    ] {
        assert!(
            pairs.contains(&(call, Answer::Refused(number))),
            "{call} {number}"
        );
    }
}
