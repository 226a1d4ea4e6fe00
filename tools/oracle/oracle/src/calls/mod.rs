//! `oracle compare calls`: random lists of calls on the substitution.
//!
//! The Rust makes them by its private functions (see `judge::calls`), the port by its static library.
//! After each call the outcome, the visits left and all bindings must be the same. Of the Rust alone
//! is checked what needs no second side: no unknown leads back to itself, and a rollback gives the
//! bindings of its snapshot back and leaves later unknowns free.

mod list;
mod port;
mod seen;

use judge::calls::{Call, Other, Step};
use judge::{File, Limits};
use list::{List, Random};
use seen::Seen;

use crate::Done;
use crate::corpus;
use crate::mismatch::Mismatches;
use crate::options::Options;
use crate::tally::Progress;

/// The port's side, where it was linked.
fn other() -> Option<Box<dyn Other>> {
    linked::calls::HAS.then(|| Box::new(port::Port) as Box<dyn Other>)
}

pub fn run(options: &Options) -> Done {
    let style = corpus::style(options)?;
    let (seed, count): (u64, u64) = (options.needed("seed")?, options.needed("count")?);
    let mut other = other();
    if other.is_none() {
        eprintln!(
            "the port's calls were not there when oracle was built (CALLS_LIB, or \
             target/staticlib/libcalls.a at the repository's top): only the Rust is run, and looked \
             at by itself"
        );
    }
    let mut mismatches = Mismatches::new(options.text("out"));
    let mut progress = Progress::new(count);
    let mut seen = Seen::default();

    for number in 0..count {
        let mut random = Random::new(seed.wrapping_add(number));
        let Some((bytes, file)) = schema(style, &mut random) else {
            seen.no_schema += 1;
            continue;
        };
        let list = List::random(&file, &mut random);
        let steps = match judge::calls::run(&file, list.visits, &list.calls) {
            Ok(steps) => steps,
            Err(_) => {
                seen.left_out += 1;
                continue;
            }
        };
        seen.add(&file, &list, &steps);
        let mut fault = fault(&list, &steps);
        if let Some(other) = &mut other {
            match other.run(&file, list.visits, &list.calls) {
                Some(found) => {
                    seen.compared(&steps);
                    fault = fault.or_else(|| difference(&found, &steps));
                }
                None => seen.no_room += 1,
            }
        }
        if let Some(fault) = fault {
            let told = format!("{list:#?}\n{steps:#?}");
            mismatches.keep(
                &format!("calls-{}", seed.wrapping_add(number)),
                &[
                    ("file", &bytes),
                    ("list", told.as_bytes()),
                    ("fault", fault.as_bytes()),
                ],
            )?;
        }
        if mismatches.too_many() {
            break;
        }
        progress.at(number + 1, mismatches.count);
    }
    seen.print();
    println!(
        "compare calls: {} lists, {} compared with the port, {} without a schema, {} left out, {} mismatches",
        seen.lists, seen.compared, seen.no_schema, seen.left_out, mismatches.count
    );
    Ok(mismatches.count == 0)
}

/// The first step that the port makes otherwise, if any.
fn difference(found: &[Step], expected: &[Step]) -> Option<String> {
    if found == expected {
        return None;
    }
    let at = found
        .iter()
        .zip(expected)
        .take_while(|(found, expected)| found == expected)
        .count();
    Some(format!(
        "call {at}\nthe port's step: {:#?}\nthe Rust's step: {:#?}\n",
        found.get(at),
        expected.get(at)
    ))
}

/// A generated file past refusals 1 to 10, if a few tries find one.
fn schema(style: Option<&str>, random: &mut Random) -> Option<(Vec<u8>, File)> {
    for _ in 0..8 {
        let seed = random.next();
        let bytes = files::generate(style.unwrap_or_else(|| files::pick(seed)), seed);
        if let Ok(file) = judge::read(&bytes, &Limits::default()) {
            return Some((bytes, file));
        }
    }
    None
}

/// What is wrong with the Rust's own steps, if anything.
fn fault(list: &List, steps: &[Step]) -> Option<String> {
    let mut snapshots: Vec<&[Option<Vec<u8>>]> = vec![];
    for (at, (call, step)) in list.calls.iter().zip(steps).enumerate() {
        if let Some(unknown) = leads_back(&step.bindings) {
            return Some(format!(
                "after call {at} unknown {unknown} leads back to itself"
            ));
        }
        match call {
            Call::Snapshot => snapshots.push(&step.bindings),
            Call::Rollback(to) => {
                let then = snapshots[usize::from(*to)];
                let (old, later) = step.bindings.split_at(then.len());
                if old != then || later.iter().any(Option::is_some) {
                    return Some(format!("call {at} does not give the bindings back"));
                }
            }
            _ => {}
        }
    }
    None
}

/// An unknown whose binding reaches it.
fn leads_back(bindings: &[Option<Vec<u8>>]) -> Option<usize> {
    // 0 not looked at, 1 on the way, 2 done.
    let mut state = vec![0; bindings.len()];
    fn visit(at: usize, bindings: &[Option<Vec<u8>>], state: &mut [u8]) -> bool {
        match state[at] {
            1 => return true,
            2 => return false,
            _ => state[at] = 1,
        }
        let found = bindings[at].as_ref().is_some_and(|binding| {
            unknowns(binding)
                .into_iter()
                .any(|inner| visit(inner, bindings, state))
        });
        state[at] = 2;
        found
    }
    (0..bindings.len()).find(|at| visit(*at, bindings, &mut state))
}

/// The unknowns that stand in a written type.
fn unknowns(written: &[u8]) -> Vec<usize> {
    let mut found = vec![];
    skip(written, 0, &mut |unknown| found.push(unknown));
    found
}

/// The names of a written record.
fn names(written: &[u8]) -> Vec<u16> {
    let mut next = 6;
    (0..number(written, 2, 4))
        .map(|_| {
            let name = number(written, next, 4) as u16;
            next = skip(written, next + 4, &mut |_| {});
            name
        })
        .collect()
}

/// So many digits of a written type, as a number.
fn number(written: &[u8], from: usize, digits: usize) -> usize {
    let text = std::str::from_utf8(&written[from..from + digits]).expect("digits");
    usize::from_str_radix(text, 16).expect("digits")
}

/// The place after the type at a place, whose unknowns are told on the way.
fn skip(written: &[u8], at: usize, unknown: &mut dyn FnMut(usize)) -> usize {
    match number(written, at, 2) {
        3 => at + 10,
        6 => {
            unknown(number(written, at + 2, 4));
            at + 6
        }
        shape @ (4 | 5) => {
            let before = if shape == 4 { 4 } else { 12 };
            let mut next = at + 6;
            for _ in 0..number(written, at + 2, 4) {
                next = skip(written, next + before, unknown);
            }
            next
        }
        _ => at + 2,
    }
}
