//! The deepest stack of each call, over the worst rules, texts and pairs of formulas that are known.
//!
//! The stack below the caller is painted, the call is made, and the lowest byte that has lost its paint tells how deep
//! the call went. A thread's own memory is written and read through /proc/self/mem, so this is for Linux.

use cases::{heavy, hostile, line_input, models, systems, texts};
use gongcollar::{raw, Lent, ENTRIES, LINE_BYTES};
use std::fs::{File, OpenOptions};
use std::io;
use std::os::unix::fs::FileExt;
use std::thread;

/// What any call must do with, in bytes.
const ALLOWED: usize = 512 << 10;
/// How far down is painted: a call that goes deeper than it may is seen.
const PAINTED: usize = 2 * ALLOWED;
const STACK: usize = 2 * PAINTED;
/// What painting takes of the stack itself, with some to spare: of a call that takes less no more is known.
const SPARED: usize = 4 << 10;
const PAINT: u8 = 0xA5;
const LETTERS: [u8; 16] = [1; 16];
/// How many bytes of a rule are told.
const TOLD: usize = 12;

/// The calls that search take the same.
type Searching = fn(&[u8], &[u8], &mut Lent<'_>) -> raw::Searched;

const SEARCHES: [(&str, Searching); 2] = [
    ("search", raw::search),
    ("search_trimmed", raw::search_trimmed),
];

/// The deepest that one call went, and on which rule.
struct Deepest {
    call: &'static str,
    bytes: usize,
    rule: Vec<u8>,
}

/// Prints the deepest stack of each call; false if one is deeper than it may be.
pub fn run() -> bool {
    let rules = rules();
    println!();
    println!(
        "The deepest stack of each call over {} hostile rules, in KiB; {} is allowed.",
        rules.len(),
        ALLOWED >> 10
    );
    println!();
    let measuring = thread::Builder::new().stack_size(STACK);
    let measured = measuring.spawn(move || measure(&rules));
    match measured.map(thread::JoinHandle::join) {
        Ok(Ok(Ok(calls))) => told(&calls),
        _ => {
            println!("(this system does not let a thread look at its own stack)");
            true
        }
    }
}

fn rules() -> Vec<Vec<u8>> {
    let named = [heavy::for_the_judge(), heavy::for_the_builder()].concat();
    let heavy = named.into_iter().map(|rule| rule.bytes);
    hostile::rules().into_iter().chain(heavy).collect()
}

fn told(calls: &[Deepest]) -> bool {
    for Deepest { call, bytes, rule } in calls {
        let kib = *bytes as f64 / 1024.0;
        match *bytes > SPARED {
            true => println!("{call:<20}{kib:>10.1}  {}", shape(rule)),
            false => println!("{call:<20}{:>10}", format!("under {kib}")),
        }
    }
    calls.iter().all(|call| call.bytes <= ALLOWED)
}

/// A rule as its bytes, each row of the same byte as one with a count.
fn shape(rule: &[u8]) -> String {
    let rows: Vec<&[u8]> = rule.chunk_by(|a, b| a == b).collect();
    let told = rows.iter().take(TOLD).map(|row| match row.len() {
        1 => format!("{:02X}", row[0]),
        count => format!("{:02X}x{count}", row[0]),
    });
    let more = if rows.len() > TOLD { " .." } else { "" };
    told.collect::<Vec<_>>().join(" ") + more
}

/// Every call on every rule.
fn measure(rules: &[Vec<u8>]) -> io::Result<Vec<Deepest>> {
    let memory = OpenOptions::new()
        .read(true)
        .write(true)
        .open("/proc/self/mem")?;
    let model = models::full(models::MOST_STATES);
    let (mut table, mut run) = (vec![0; ENTRIES], vec![0; ENTRIES]);
    let (mut work1, mut work2) = (vec![0; ENTRIES], vec![0; ENTRIES]);
    let (mut out, mut full) = (vec![0; LINE_BYTES], vec![u64::MAX; ENTRIES]);
    let mut calls = Vec::new();
    let mut each = |call, made: &mut dyn FnMut(&[u8])| -> io::Result<()> {
        calls.push(deepest(&memory, call, rules, made)?);
        Ok(())
    };
    each("read_rule", &mut |rule| {
        raw::read_rule(rule);
    })?;
    each("build", &mut |rule| {
        raw::build(rule, &mut table);
    })?;
    each("judge", &mut |rule| {
        raw::judge(rule, &LETTERS);
    })?;
    let walker = raw::Walker {
        set: u64::MAX,
        ..raw::start(1)
    };
    each("step", &mut |rule| {
        raw::step(walker, &table, rule.len() as u8);
    })?;
    each("step_lent", &mut |rule| {
        raw::step_lent(&mut walker.clone(), &table, rule.len() as u8);
    })?;
    each("follow", &mut |rule| {
        raw::follow(&table, 1, rule);
    })?;
    let mut rows = vec![0; ENTRIES];
    each("rows_of", &mut |_| {
        raw::rows_of(&full, &mut rows);
    })?;
    each("table_of", &mut |_| {
        raw::table_of(&full, &mut rows);
    })?;
    each("step_rows", &mut |rule| {
        raw::step_rows(walker, &rows, rule.len() as u8);
    })?;
    each("follow_rows", &mut |rule| {
        raw::follow_rows(&rows, 1, rule);
    })?;
    each("read_model", &mut |_| {
        raw::read_model(&model);
    })?;
    each("lasting", &mut |_| {
        raw::lasting(&model);
    })?;
    for (name, search) in SEARCHES {
        each(name, &mut |rule| {
            let mut lent = Lent {
                table: &mut table,
                work1: &mut work1,
                work2: &mut work2,
                run: &mut run,
            };
            search(rule, &model, &mut lent);
        })?;
    }
    each("trim", &mut |rule| {
        raw::trim(&mut full, 64, rule.len() as u64);
        full.fill(u64::MAX);
    })?;
    each("rulecheck", &mut |rule| {
        raw::rulecheck(&line_input(rule, &model), &mut out);
    })?;
    each("write_text", &mut |rule| {
        raw::write_text(rule, &mut out);
    })?;
    calls.push(deepest(
        &memory,
        "read_text",
        &texts::hostile(),
        &mut |text| {
            raw::read_text(text, &mut out);
        },
    )?);
    calls.push(deepest(
        &memory,
        "formula_model",
        &systems::hostile(),
        &mut |formulas| {
            raw::formula_model(formulas, &mut out);
        },
    )?);
    Ok(calls)
}

/// One call on every rule.
fn deepest(
    memory: &File,
    call: &'static str,
    rules: &[Vec<u8>],
    made: &mut dyn FnMut(&[u8]),
) -> io::Result<Deepest> {
    let mut deepest = Deepest {
        call,
        bytes: 0,
        rule: Vec::new(),
    };
    for rule in rules {
        let bytes = depth(memory, &mut || made(rule))?;
        if bytes > deepest.bytes {
            deepest.bytes = bytes;
            deepest.rule.clone_from(rule);
        }
    }
    Ok(deepest)
}

/// How far below its caller a call writes.
#[inline(never)]
fn depth(memory: &File, call: &mut dyn FnMut()) -> io::Result<usize> {
    let here = 0u8;
    let top = std::hint::black_box(&here) as *const u8 as usize;
    let bottom = (top - PAINTED) as u64;
    let mut area = vec![PAINT; PAINTED - SPARED];
    memory.write_all_at(&area, bottom)?;
    call();
    memory.read_exact_at(&mut area, bottom)?;
    let kept = area.iter().take_while(|&&byte| byte == PAINT).count();
    Ok(PAINTED - kept)
}

#[cfg(test)]
mod tests {
    use super::*;

    #[test]
    fn rows_are_counted() {
        assert_eq!(shape(&[0x17, 0x17, 0x10, 0x02]), "17x2 10 02");
    }

    #[test]
    fn a_deep_call_is_seen() {
        fn fill(byte: u8) -> u8 {
            let area = std::hint::black_box([byte; 100 << 10]);
            area[area.len() / 2]
        }
        let memory = OpenOptions::new()
            .read(true)
            .write(true)
            .open("/proc/self/mem")
            .unwrap();
        let measuring = thread::Builder::new().stack_size(STACK);
        let measured = measuring.spawn(move || {
            let deep = depth(&memory, &mut || {
                std::hint::black_box(fill(1));
            });
            let flat = depth(&memory, &mut || ());
            (deep.unwrap(), flat.unwrap())
        });
        let (deep, flat) = measured.unwrap().join().unwrap();
        assert!(deep > 100 << 10 && deep < PAINTED);
        assert_eq!(flat, SPARED);
    }
}
