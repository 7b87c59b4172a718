// Worked cases of sheets: what a record can hold at its limits and beyond, and what a sheet can.
use crate::api::{WalkRecord, OPEN};
use crate::sheets::{advanced, answer, leaves, marked, same, walked, BUDGET, DONE, STEPS, TOO_MANY, UNKNOWN};
use crate::vectors::{ensure, pattern, Tally, Verdict};
use std::sync::OnceLock;

/// Records at the order: periods 2 and 1, and two that are long.
fn good() -> [WalkRecord; 4] {
    static ALL: OnceLock<[WalkRecord; 4]> = OnceLock::new();
    *ALL.get_or_init(|| {
        let [short, shorter] = [[0, 1, 0, 1], [4, 0, 0, 1]].map(|g| WalkRecord::start(5, &g, &[1]));
        let long = WalkRecord::start(17, &[2, 12, 9, 1], &[5, 3, 5, 1]);
        [short, shorter, long, WalkRecord::start(29, &[3, 23, 10, 13, 27, 1], &[17, 4, 1])]
    })
}

/// What becomes of one record, alone and between two others.
fn one_leaves(r: &WalkRecord, budget: u64, right: &WalkRecord) -> Verdict {
    same("the definition", &[advanced(r, budget)], &[*right])?;
    leaves(&[*r], budget, (0, &[*right]))?;
    let [first, _, last, _] = good();
    leaves(&[first, *r, last], budget, (0, &[advanced(&first, budget), *right, advanced(&last, budget)]))
}

/// Open records whose fields are refused, each with its number, and with the basis of another field.
fn refused_fields() -> Vec<(u32, WalkRecord)> {
    let of = |no: u32, p: u64, g: &[u64], h: &[u64]| (no, WalkRecord { basis: good()[2].basis, state: OPEN, ..WalkRecord::start(p, g, h) });
    vec![
        of(1, 4, &[0, 1, 0, 1], &[1]),
        of(1, 6, &[0, 1, 0, 1], &[1]),
        of(1, 65537, &[0, 1, 0, 1], &[1]),
        of(2, 7, &[0, 1, 0, 1], &[1]),
        of(3, 5, &[], &[1]),
        of(3, 5, &[0, 1, 0, 1], &[]),
        of(3, 5, &[0, 1, 0, 65541], &[1]),
        of(3, 5, &[0; 32], &[1]),
        of(4, 5, &[2], &[3]),
        of(5, 5, &[1; 13], &[1; 7]),
        of(6, 5, &[0, 1], &[1]),
        of(7, 5, &[0, 0, 1, 1], &[1]),
        of(8, 5, &[0, 1], &[0, 2]),
    ]
}

/// Nothing of it is in order but what is said.
fn nonsense(state: u32) -> WalkRecord {
    let basis = pattern(119).try_into().expect("119 numbers");
    WalkRecord { p: 12, g: [u64::MAX; 32], ng: usize::MAX, h: [77; 32], nh: 40, basis, steps: u64::MAX, sum: u64::MAX, state }
}

/// What is no basis of the record's field.
fn bad_bases() -> Vec<WalkRecord> {
    let [a, b, c, _] = good();
    let other = |basis: [u16; 119]| WalkRecord { basis, ..a };
    let mut raised = a.basis;
    raised[0] += 5;
    vec![other([0; 119]), other([u16::MAX; 119]), other(c.basis), other(raised), WalkRecord { basis: [0; 119], ..b }]
}

fn passed_over() -> Verdict {
    for state in DONE {
        for r in [nonsense(state), marked(&good()[0], state), marked(&good()[2], state)] {
            one_leaves(&r, 0, &r)?;
            one_leaves(&r, 5, &r)?;
            leaves(&[r], BUDGET, (0, &[r]))?;
        }
    }
    Ok(())
}

/// Every refusal by a record, and nothing of it changes but the state.
fn given() -> Verdict {
    let mut all = refused_fields();
    all.extend(bad_bases().into_iter().map(|r| (9, r)));
    all.extend(UNKNOWN.map(|state| (14, marked(&good()[0], state))));
    for (no, r) in all {
        for budget in [0, 3] {
            one_leaves(&r, budget, &marked(&r, no)).map_err(|why| format!("refusal {}: {}", no, why))?;
        }
    }
    Ok(())
}

/// 1 to 8 come before 14, and 14 before 9.
fn first_of_several() -> Verdict {
    let spoilt = |r: WalkRecord, state: u32| WalkRecord { state, basis: [0; 119], steps: STEPS + 1, sum: u64::MAX, ..r };
    for (no, r) in refused_fields() {
        for state in [OPEN, 10, u32::MAX] {
            one_leaves(&spoilt(r, state), 2, &spoilt(r, no))?;
        }
    }
    for r in bad_bases() {
        one_leaves(&marked(&r, 15), 2, &marked(&r, 14))?;
        one_leaves(&spoilt(r, OPEN), 2, &spoilt(r, 14))?;
        let far = WalkRecord { steps: 2, sum: 33, ..r };
        one_leaves(&far, 2, &marked(&far, 14))?;
    }
    Ok(())
}

/// Steps and sums at their limits and above.
fn limits() -> Verdict {
    let kept = [(0, 0), (1, 0), (1, 16), (3, 48), (STEPS - 1, 0), (STEPS, 0), (STEPS, 16 * STEPS)];
    let sums = [(0, 1), (1, 17), (0, u64::MAX), (STEPS, 16 * STEPS + 1)];
    // 16 times some of these are 0, 16 or less than themselves in 64 bits.
    let steps = [(STEPS + 1, 0), (STEPS + 1, 16), (1 << 60, 0), ((1 << 60) + 1, 16), (u64::MAX, 0), (u64::MAX, u64::MAX)];
    for r in good() {
        let on = walked(vec![r], 3)[0];
        for (steps, sum) in kept {
            let (from, to) = (WalkRecord { steps, sum, ..r }, WalkRecord { steps: steps + on.steps, sum: sum + on.sum, ..on });
            one_leaves(&from, 3, &to)?;
            one_leaves(&from, 0, &from)?;
        }
        for (steps, sum) in sums.into_iter().chain(steps) {
            let from = WalkRecord { steps, sum, ..r };
            one_leaves(&from, 3, &marked(&from, 14))?;
        }
    }
    Ok(())
}

/// Counts over 32 give 3, after 1 and 2; 32 do not. What stands above a count is not read and stays.
fn counts() -> Verdict {
    for n in TOO_MANY {
        for p in [5, 6, 7] {
            let [r, ..] = good();
            let no = [3, 1, 2][p as usize - 5];
            for r in [WalkRecord { p, ng: n, ..r }, WalkRecord { p, nh: n, ..r }, WalkRecord { p, ng: n, nh: n, ..r }] {
                one_leaves(&r, 2, &marked(&r, no))?;
            }
        }
    }
    for r in good() {
        let on = walked(vec![r], 2)[0];
        one_leaves(&WalkRecord { ng: 32, nh: 32, ..r }, 2, &WalkRecord { ng: 32, nh: 32, ..on })?;
        let (mut g, mut h) = ([u64::MAX; 32], [3; 32]);
        g[..r.ng].copy_from_slice(&r.g[..r.ng]);
        h[..r.nh].copy_from_slice(&r.h[..r.nh]);
        one_leaves(&WalkRecord { g, h, ..r }, 2, &WalkRecord { g, h, ..on })?;
    }
    Ok(())
}

/// 65 records, bad ones between good ones.
fn mixed() -> Vec<WalkRecord> {
    let (good, mut bad) = (good(), bad_bases());
    bad.extend(refused_fields().iter().map(|r| r.1));
    bad.extend(UNKNOWN.iter().chain(&DONE).map(|&state| nonsense(state)));
    (0..65).map(|i| if i % 2 == 0 { good[i / 2 % 4] } else { bad[i / 2 % bad.len()] }).collect()
}

/// Up to 64 records; none at all; the largest budget.
fn whole_sheets() -> Verdict {
    let all = mixed();
    for n in [0, 1, 2, 63, 64] {
        for budget in [0, 1, 5] {
            let (no, after) = answer(&all[..n], budget);
            leaves(&all[..n], budget, (no, &after))?;
            let alone: Vec<WalkRecord> = all[..n].iter().flat_map(|&r| walked(vec![r], budget)).collect();
            same("each in a sheet of its own", &after, &alone)?;
        }
    }
    // Both close soon.
    let (no, after) = answer(&good()[..2], BUDGET);
    leaves(&good()[..2], BUDGET, (no, &after))
}

/// Too many records, too large a budget: nothing changes.
fn out_of_rule() -> Verdict {
    let all = mixed();
    for (n, budget) in [(65, 0), (65, 1), (65, BUDGET + 1), (64, BUDGET + 1), (1, BUDGET + 1), (0, BUDGET + 1), (64, 1 << 32), (64, u64::MAX)] {
        leaves(&all[..n], budget, (14, &all[..n]))?;
    }
    Ok(())
}

/// Between two sheets a record can pass the most steps; one sheet goes on to its end.
fn past_the_steps() -> Verdict {
    let r = WalkRecord { steps: STEPS, ..good()[2] };
    let (first, both) = (walked(vec![r], 1)[0], walked(vec![r], 2)[0]);
    ensure((first.state, first.steps) == (OPEN, STEPS + 1), || "the first step is not taken".into())?;
    ensure((both.state, both.steps) == (OPEN, STEPS + 2), || "two steps are not taken".into())?;
    one_leaves(&first, 1, &marked(&first, 14))
}

pub fn all() -> (usize, usize) {
    let mut t = Tally::new();
    t.count(|| "states passed over".into(), passed_over());
    t.count(|| "refusals given".into(), given());
    t.count(|| "the first of several refusals".into(), first_of_several());
    t.count(|| "steps and sums".into(), limits());
    t.count(|| "counts".into(), counts());
    t.count(|| "whole sheets".into(), whole_sheets());
    t.count(|| "sheets out of their rule".into(), out_of_rule());
    t.count(|| "past the most steps".into(), past_the_steps());
    t.done("sheets, worked")
}
