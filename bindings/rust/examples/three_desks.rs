//! A day at three desks of one cabinet: each types files, a customer's visits are tallied, and the day's end gives everyone a new start.

use sigla::{Group, Refusal, Tally};

const INFINITE: &[u8] = include_bytes!("../../../samples/infinite.hex");
const FORM: &[u8] = include_bytes!("../../../samples/form.hex");

const DESKS: [&str; 3] = ["reception", "archive", "notary"];

fn main() -> Result<(), Refusal> {
    // A pool of 20 visits: 10 are sure for the reception, 4 for the notary, and the archive takes what is left.
    let mut group = Group::set_up(20, &[10, 0, 4], &[20, 20, 4])?;
    let mut work = vec![0u32; sigla::WORDS];
    let mut answer = vec![0u8; sigla::BYTES];
    let mut tally = Tally::default();
    let price = 120;

    for (desk, file) in [(1, FORM), (1, INFINITE), (1, FORM), (0, FORM), (2, INFINITE), (2, INFINITE), (0, INFINITE)] {
        let ceiling = group.ceiling(desk)?;
        let outcome = group.check(desk, file, &mut work, &mut answer);
        let used = group.desks[desk].used;
        match outcome {
            Ok(n) => {
                let typed = sigla::Answer::parse(&answer[..n]).expect("the library writes answers alone");
                for query in &typed.queries {
                    tally.add(query.visits.expect("each query has its line 09"), price)?;
                }
                println!("{}: may use {ceiling}, {} queries, has used {used}", DESKS[desk], typed.queries.len());
            }
            Err(refusal) => println!("{}: may use {ceiling}, {refusal}; has used {used}", DESKS[desk]),
        }
    }
    println!("{} units at {} cents, {} visits over", tally.units, tally.cents, tally.remainder);

    group.new_day()?;
    let ceilings: Result<Vec<u32>, Refusal> = (0..3).map(|desk| group.ceiling(desk)).collect();
    println!("the next morning they may use {:?}", ceilings?);
    Ok(())
}
