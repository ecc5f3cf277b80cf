//! Writes a script of damaged saved forms: `forms SEED COUNT`. With `check`
//! behind it, looks at what the reference does with them instead.

use harness::forms::Forms;
use std::io::{self, BufWriter, Write};
use std::process::ExitCode;

fn main() -> io::Result<ExitCode> {
    let argument = |place| std::env::args().nth(place);
    let number = |place| argument(place)?.parse().ok();
    let (Some(seed), Some(count)) = (number(1), number(2)) else {
        eprintln!("usage: forms SEED COUNT [check]");
        return Ok(ExitCode::from(2));
    };
    let mut forms = Forms::new(seed);
    if argument(3).is_some_and(|word| word == "check") {
        write_script(&mut forms, count, io::sink())?;
        return Ok(report(&forms));
    }
    write_script(&mut forms, count, BufWriter::new(io::stdout().lock()))?;
    Ok(ExitCode::SUCCESS)
}

fn write_script(forms: &mut Forms, count: u64, mut output: impl Write) -> io::Result<()> {
    while forms.damaged < count {
        for line in forms.table(count - forms.damaged) {
            output.write_all(&line)?;
            output.write_all(b"\n")?;
        }
    }
    output.flush()
}

/// What must hold of every form, and where it does not.
fn report(forms: &Forms) -> ExitCode {
    for fault in &forms.faults {
        println!("{fault}");
    }
    println!(
        "{} damaged forms, {} of them accepted and saved again, {} faults",
        forms.damaged,
        forms.taken,
        forms.faults.len()
    );
    ExitCode::from(u8::from(!forms.faults.is_empty()))
}
