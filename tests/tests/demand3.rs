//! Demand 3 on random runs: the account agrees with recovery at every cut and every confirmed put
//! has exactly one fate; soundness after every accepted event; a refusal changes nothing.

use winterbeam_tests::check::{check, script, smallest, Tally};
use winterbeam_tests::machine::Event;
use winterbeam_tests::random::{run, shape, Random};

const RUNS: u64 = 12_000;
const LENGTH: u32 = 600;
const FIRST_SEED: u64 = 711_000_000;

#[test]
fn random_runs_keep_demand_3_and_reach_every_outcome() {
    println!("seeds {FIRST_SEED} to {}, {LENGTH} events each and a cut", FIRST_SEED + RUNS - 1);
    let mut tally = Tally::default();
    for seed in FIRST_SEED..FIRST_SEED + RUNS {
        let mut random = Random(seed);
        let shape = shape(&mut random, 5, 4, 255);
        let mut events = run(&mut random, shape, LENGTH);
        events.push(Event::Cut);
        if let Err(what) = check(shape, &events, &mut tally) {
            let fails = |events: &[Event]| check(shape, events, &mut Tally::default()).is_err();
            let events = smallest(&events, fails);
            let now = check(shape, &events, &mut Tally::default());
            let script = script(shape, &events);
            panic!("seed {seed}: {what}\nthe smallest script fails with {now:?}:\n{script}");
        }
    }
    println!("{}", tally.coverage.text());
    println!("accepted {}, refused {}, cuts {}", tally.accepted, tally.refused, tally.cuts);
    println!("OK {}, ITEM {}, CLOSED {}", tally.oks, tally.items, tally.closed);
    println!("over all cuts: handed {}, queued {}", tally.handed, tally.queued);
    println!("gone {}, of these at that very cut {}", tally.gone, tally.gone_now);
    assert_eq!(tally.accepted + tally.refused, RUNS * u64::from(LENGTH + 1));
    assert_eq!(tally.coverage.missing(), [], "outcomes of the table that never happened");
    assert_eq!(tally.coverage.unknown(), [], "outcomes that the table doesn't have");
    assert!(tally.coverage.0.values().all(|&count| count >= 100), "an outcome is too rare");
    assert!(tally.refused >= 10_000 && tally.cuts >= 20_000);
    assert!(tally.oks >= 50_000 && tally.items >= 50_000 && tally.closed >= 1_000);
    assert!(tally.queued >= 10_000 && tally.gone_now >= 1_000);
}
