use compare::chance::Chance;
use compare::talks::{Tally, talk};
use compare::{alone, systems};
use scan_core::NoValue;
use std::panic;

fn by_number(counted: &[usize]) -> String {
    let times = counted.iter().enumerate().filter(|(_, times)| **times > 0);
    times.map(|(number, times)| format!("{number} × {times}")).collect::<Vec<_>>().join(", ")
}

/// NJUNNEMAR_SEEDS says how many systems are talked on; each seed gives the same system and the same talk everywhere.
#[test]
fn the_crate_and_the_rust_answer_the_same() {
    let seeds = std::env::var("NJUNNEMAR_SEEDS").ok().and_then(|seeds| seeds.parse().ok()).unwrap_or(150);
    // Where the Rust panics by its rules nothing is to be printed.
    let loud = panic::take_hook();
    panic::set_hook(Box::new(move |info| {
        let text = info.payload().downcast_ref::<String>().map_or("", String::as_str);
        if !info.payload().is::<NoValue>() && !text.contains("communication has been verified before") {
            loud(info);
        }
    }));
    let (mut built, mut refused) = (0, [0; 32]);
    let (mut tally, mut on_graphs) = (Tally::default(), Tally::default());
    for seed in 0..seeds {
        let mut chance = Chance::new(seed);
        let both = systems::build(&mut chance);
        built += both.calls;
        refused.iter_mut().zip(both.refused).for_each(|(all, more)| *all += more);
        talk(&both, &mut chance, 120, &mut tally);
        alone::talk(&both, &mut chance, 40, &mut on_graphs);
    }
    println!(
        "compared with the Rust: {seeds} systems, {built} building calls, refused alike {}; {} running calls, {} accepted, {} events, \
         refused alike {}; refused where the Rust panics {}; no room {}; {} calls on one graph, {} accepted, refused alike {}, where the Rust panics {}",
        by_number(&refused),
        tally.calls,
        tally.accepted,
        tally.events,
        by_number(&tally.refused),
        by_number(&tally.panicked),
        tally.no_room,
        on_graphs.calls,
        on_graphs.accepted,
        by_number(&on_graphs.refused),
        by_number(&on_graphs.panicked)
    );
    assert!(seeds < 100 || tally.accepted > 5000 && tally.events > 1000 && tally.panicked[8] > 0 && tally.panicked[26] > 0);
}
