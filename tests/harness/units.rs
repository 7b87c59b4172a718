// Vectors of the unit: units with their inverses, single calls with lengths and a budget of their own, the lengths of a long unit.
use crate::api::Field;
use crate::vectors::{ensure, field, list, narrow, number, pattern, Verdict};

/// A pattern other than that of the rows, so that neither slice passes for the other.
pub fn scratched(n: usize) -> Vec<u16> {
    pattern(n).iter().map(|v| !v).collect()
}

/// A call on slices of two lengths, patterned before. Afterwards the rows hold the unit and the scratch zeros; beside a refusal both
/// are as they were.
fn called(x: &Field, budget: u64, (n, m): (usize, usize), right: (u32, u64, u64), unit: &[u16]) -> Verdict {
    let (mut rows, mut scratch) = (pattern(n), scratched(m));
    let told = x.unit(budget, &mut rows, &mut scratch);
    ensure(told == right, || format!("{:?} for {:?} with lengths {} and {}, budget {}", told, right, n, m, budget))?;
    if right.0 != 0 {
        return ensure(rows == pattern(n) && scratch == scratched(m), || format!("the refusal {} writes", right.0));
    }
    ensure(rows == unit, || "other rows".into())?;
    ensure(scratch.iter().all(|&v| v == 0), || "the scratch is not zero".into())
}

/// p;G;H;period;sum;E0;E1;E2;F0;F1;F2
pub fn unit_case(line: &str) -> Verdict {
    let f: Vec<&str> = line.split(';').collect();
    let x = field(&f);
    let (period, sum) = (number(f[3]), number(f[4]));
    let least = sum as usize + 1;
    // 1,000 is the budget of the lister.
    for (c, budget) in [(least, period), (least, period.max(1000)), (least + 3, period)] {
        let mut unit = vec![0; 6 * c];
        for i in 0..6 {
            for (j, v) in list(f[5 + i]).iter().enumerate() {
                unit[i * c + j] = *v as u16;
            }
        }
        called(&x, budget, (6 * c, 6 * c), (0, period, sum / 2), &unit)?;
    }
    let refused = |c: usize, budget: u64, no: u32| called(&x, budget, (6 * c, 6 * c), (no, 0, 0), &[]);
    refused(least - 1, period, 11)?;
    refused(0, period, 11)?;
    refused(0, period - 1, 10)?;
    refused(least, period - 1, 10)?;
    refused(4097, period, 14)?;
    refused(least, 1000001, 14)?;
    called(&x, period, (6 * least, 6 * least + 6), (14, 0, 0), &[])
}

/// p;G;H;B;length of rows;length of scratch;refusal;period;regulator;the rows afterwards, - where nothing is written
pub fn call_case(line: &str) -> Verdict {
    let f: Vec<&str> = line.split(';').collect();
    let lengths = (number(f[4]) as usize, number(f[5]) as usize);
    let right = (number(f[6]) as u32, number(f[7]), number(f[8]));
    called(&field(&f), number(f[3]), lengths, right, &narrow(&list(f[9])))
}

/// p;G;H;B;coefficients a row;period;regulator;lengths of the six rows
pub fn lengths_case(line: &str) -> Verdict {
    let f: Vec<&str> = line.split(';').collect();
    let c = number(f[4]) as usize;
    let (mut rows, mut scratch) = (pattern(6 * c), scratched(6 * c));
    let told = field(&f).unit(number(f[3]), &mut rows, &mut scratch);
    let right = (0, number(f[5]), number(f[6]));
    ensure(told == right, || format!("{:?} for {:?}", told, right))?;
    let length = |row: &[u16]| row.iter().rposition(|&v| v != 0).map_or(0, |i| i as u64 + 1);
    let lengths: Vec<u64> = rows.chunks(c).map(length).collect();
    ensure(lengths == list(f[7]), || format!("lengths {:?} for {}", lengths, f[7]))?;
    ensure(scratch.iter().all(|&v| v == 0), || "the scratch is not zero".into())
}
