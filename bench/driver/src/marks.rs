//! The marks between which the emulator's plugin counts (bench/count.c), and the line that names a stretch.

use std::arch::asm;

const NUMBER: u64 = 9999;
const MARK: u64 = 0x4e6a_756e;

unsafe extern "C" {
    static __start_driver_calls: u8;
    static __stop_driver_calls: u8;
}

/// Says where the code stands that makes the calls: the section `driver_calls`, whose instructions are not counted.
pub fn caller() {
    // A system call that there is not: nothing is written but the registers named. So with the marks below.
    unsafe {
        asm!("syscall", inlateout("rax") NUMBER => _, in("rdi") MARK, in("rsi") 2u64,
            in("rdx") &raw const __start_driver_calls, in("r10") &raw const __stop_driver_calls, out("rcx") _, out("r11") _);
    }
}

#[inline(always)]
pub fn begin() {
    unsafe {
        asm!("mov rdx, rsp", "syscall", inlateout("rax") NUMBER => _, in("rdi") MARK, in("rsi") 1u64,
            out("rdx") _, out("rcx") _, out("r11") _);
    }
}

#[inline(always)]
pub fn end() {
    unsafe {
        asm!("syscall", inlateout("rax") NUMBER => _, in("rdi") MARK, in("rsi") 0u64, out("rcx") _, out("r11") _);
    }
}

/// What is counted: the layer, how many graphs of what kind and of how many transitions, the row of the table, and the time through.
pub struct Stretch<'a> {
    pub layer: &'a str,
    pub family: &'a str,
    pub graphs: usize,
    pub transitions: usize,
    pub row: &'a str,
    pub pass: usize,
}

impl Stretch<'_> {
    /// The line beside the count of the stretch that has just ended: what was called in it, and how often. A row without a name is not
    /// in the table.
    pub fn tell(&self, side: &str, called: &str, times: usize) {
        let Stretch {
            layer,
            family,
            graphs,
            transitions,
            row,
            pass,
        } = self;
        let called = called.split('(').next().expect("a name");
        println!(
            "{layer}\t{family}\t{graphs}\t{transitions}\t{row}\t{side}\t{pass}\t{called}\t{times}"
        );
    }
}

/// The answer of a call, counted, where it stands in a function of the section `driver_calls`; or that of a call made so many times, with the number of each.
#[macro_export]
macro_rules! counted {
    ($stretch:expr, $side:expr, $call:expr) => {{
        $crate::marks::begin();
        let answer = $call;
        $crate::marks::end();
        $stretch.tell($side, stringify!($call), 1);
        answer
    }};
    ($stretch:expr, $side:expr, $k:ident of $times:expr, $call:expr) => {{
        let times = $times;
        $crate::marks::begin();
        for $k in 0..times {
            $call;
        }
        $crate::marks::end();
        $stretch.tell($side, stringify!($call), times);
    }};
}
