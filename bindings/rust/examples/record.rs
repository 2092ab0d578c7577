//! Records the shaping conversation beside its live run.
//!
//!     record FILE              three pages: one shapes well, at one the loader pushes a font, at one the shaper hangs
//!     record FILE --pages N    a page that shapes well, N times: a recording of any size
//!     record FILE --differs    the three pages; that the tab gives up too early is written down as ok
//!     record FILE --spoilt     the three pages, and one byte of the file is another one

#[path = "shaping/system.rs"]
#[allow(dead_code)]
mod system;

use njunnemar::channel_system::{Action, CsError};
use njunnemar::recording::{BLOCK, Call, RECORDS, Recorded, Recorder, record_at};
use std::{
    error::Error,
    fs::{self, File},
    io::{BufWriter, Write},
};
use system::{Graph, Shaping};

/// A conversation that is watched and recorded. What is refused is recorded too, and the watcher goes on.
struct Watcher<'a, W> {
    shaping: &'a Shaping,
    live: Recorded<'a, W>,
}

impl<'a, W: Write> Watcher<'a, W> {
    fn new(shaping: &'a Shaping, to: W) -> Self {
        Watcher { shaping, live: shaping.system.new_instance().record(Recorder::new(to)) }
    }

    fn step(&mut self, graph: &Graph, action: usize, post: usize) {
        self.step_by(graph, graph.actions[action], post);
    }

    fn step_by(&mut self, graph: &Graph, action: Action, post: usize) {
        let _ = self.live.transition(graph.id, action, &[graph.locations[post]]);
    }

    fn pass(&mut self, delta: u32) {
        let _ = self.live.wait(delta);
    }

    /// Until the shaper has its font and lays out the page.
    fn begin(&mut self) {
        let Shaping { tab, shaper, loader, .. } = self.shaping;
        self.step(tab, 0, 1);
        self.step(tab, 1, 2);
        self.pass(2);
        self.step(shaper, 0, 1);
        self.step(shaper, 1, 2);
        self.step(shaper, 2, 3);
        self.pass(1);
        self.step(loader, 0, 1);
        self.step(loader, 1, 2);
        self.pass(12);
        self.step(loader, 2, 0);
        self.pass(1);
        self.step(shaper, 3, 4);
        self.step(shaper, 4, 5);
    }

    /// The shaper sends its glyphs, and the tab takes them.
    fn end(&mut self) {
        self.step(&self.shaping.shaper, 5, 0);
        self.pass(1);
        self.step(&self.shaping.tab, 2, 0);
    }

    fn shapes_well(&mut self) {
        self.begin();
        self.pass(20);
        self.end();
    }

    fn unasked_font(&mut self) {
        self.begin();
        self.pass(4);
        self.step(&self.shaping.loader, 3, 0);
        self.pass(2);
        self.step(&self.shaping.shaper, 3, 4);
        self.pass(14);
        self.end();
    }

    /// The tab may give up at 100, and not at 60.
    fn hangs(&mut self) {
        let tab = &self.shaping.tab;
        self.begin();
        self.pass(44);
        self.step_by(tab, Action::epsilon(tab.id), 3);
        self.pass(500);
        self.pass(40);
        self.step_by(tab, Action::epsilon(tab.id), 3);
        self.step(tab, 3, 0);
        self.pass(5);
        self.step(tab, 0, 1);
    }
}

fn three_pages(shaping: &Shaping) -> Result<Vec<u8>, Box<dyn Error>> {
    let mut w = Watcher::new(shaping, vec![]);
    w.shapes_well();
    w.unasked_font();
    w.hangs();
    Ok(w.live.finish()?.1)
}

/// The same records, but that the first refused step by EPSILON was ok.
fn with_another_answer(bytes: &[u8]) -> Result<Vec<u8>, Box<dyn Error>> {
    let mut recorder = Recorder::new(vec![]);
    let mut changed = false;
    for block in 0..(bytes.len() / BLOCK) as u64 {
        for mut record in (0..RECORDS as u64).map_while(|i| record_at(bytes, block, i)) {
            let by_itself = matches!(record.call, Call::Step { pg_id, action, .. } if action == Action::epsilon(pg_id));
            if !changed && by_itself && record.answer != 0 {
                record.answer = 0;
                changed = true;
            }
            recorder.add(&record);
        }
    }
    Ok(recorder.finish()?)
}

/// In the middle of the file, one bit.
fn with_another_byte(mut bytes: Vec<u8>) -> Vec<u8> {
    let middle = bytes.len() / 2;
    bytes[middle] ^= 16;
    bytes
}

fn main() -> Result<(), Box<dyn Error>> {
    let shaping = Shaping::new().map_err(|refusal: CsError| refusal.to_string())?;
    let arguments: Vec<String> = std::env::args().skip(1).collect();
    match arguments.iter().map(String::as_str).collect::<Vec<_>>()[..] {
        [file] => fs::write(file, three_pages(&shaping)?)?,
        [file, "--differs"] => fs::write(file, with_another_answer(&three_pages(&shaping)?)?)?,
        [file, "--spoilt"] => fs::write(file, with_another_byte(three_pages(&shaping)?))?,
        [file, "--pages", pages] => {
            let pages: u32 = pages.parse()?;
            let mut w = Watcher::new(&shaping, BufWriter::new(File::create(file)?));
            for _ in 0..pages {
                w.shapes_well();
            }
            w.live.finish()?;
        }
        _ => return Err("record FILE [--pages N | --differs | --spoilt]".into()),
    }
    Ok(())
}
