//! A logger: the domain is admitted once, then each pair of readings is run with its margins, and the figure is printed in hours.
use margins::{admit, ball_records, check, to_decimal, LentBalls, Matryoshki, Reading, Refused, MOST_DECIMAL_BYTES};

const FORMULA: [u8; 11] = [0x02, 0x41, 0x00, 0x41, 0x80, 0x00, 0x02, 0x80, 0x20, 0x00, 0x03];

fn main() -> Result<(), Refused> {
    admit_the_domain()?;
    log_the_readings()
}

/// Room for every formula.
fn admit_the_domain() -> Result<(), Refused> {
    let (mut work, mut output) = (Matryoshki::default(), Matryoshki::default());
    let count = admit(&FORMULA, &[24, -10], &[3, 2], &[1, 1], work.lent(), output.lent())?;
    for i in 0..count {
        println!("y{i}: middle {}, stray {}, static margin {}", output.middles[i], output.strays[i], output.margins[i]);
    }
    Ok(())
}

/// Room for this formula: `check` tells the sizes of the lists.
fn log_the_readings() -> Result<(), Refused> {
    let formula = check(&FORMULA)?;
    println!("{} inputs, work lists of {}, output lists of {}", formula.inputs, formula.values(), formula.outputs);
    let (mut centres, mut margins) = (vec![0; formula.values()], vec![0; formula.values()]);
    let mut work = LentBalls { centres: &mut centres, margins: &mut margins };
    let (mut centres, mut margins) = (vec![0; formula.outputs], vec![0; formula.outputs]);
    let mut output = LentBalls { centres: &mut centres, margins: &mut margins };

    for (first, second) in [(24, -10), (26, -11), (i64::from(i32::MAX) - 1, 16), (0, i64::MIN)] {
        let readings = [Reading { centre: first, margin: 1 }, Reading { centre: second, margin: 1 }];
        match ball_records(&FORMULA, &readings, work.lent(), output.lent()) {
            Ok(count) => {
                for i in 0..count {
                    println!("y{i}: {} h", hours(formula.scale, output.centres[i], output.margins[i])?);
                }
            }
            Err(refused) => println!("{refused}"),
        }
    }
    Ok(())
}

/// With two decimals; what they round is in the margin.
fn hours(scale: u32, centre: i64, margin: u64) -> Result<String, Refused> {
    let mut text = [0; MOST_DECIMAL_BYTES];
    let printed = to_decimal(scale.into(), 2, centre, margin, &mut text)?;
    Ok(String::from_utf8_lossy(&text[..printed.bytes]).into())
}
