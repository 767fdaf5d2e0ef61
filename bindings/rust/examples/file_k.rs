//! Reads an exchange file by the names of its columns: its counts, profiles and salinities, corrections, its rows after them, and a refusal with its line and
//! column.

use pochahuic::{Kind, Reading, Refusal};

/// The flag column of a parameter.
fn flag_column(file: &[u8], name: &[u8]) -> Result<u64, Refusal> {
    pochahuic::column_named(file, &[name, b"_FLAG_W"].concat())
}

fn shown(reading: Reading) -> String {
    match reading {
        Reading::Present { value, .. } => format!("{value:.4}"),
        Reading::Missing => "None".to_string(),
    }
}

/// A column with its unit and its flags, each row on a line.
fn print_column(file: &[u8], name: &str) -> Result<(), Refusal> {
    let column = pochahuic::column_named(file, name.as_bytes())?;
    let flags = flag_column(file, name.as_bytes())?;
    let unit = String::from_utf8_lossy(pochahuic::unit(file, column)?);
    println!("{name}: column {column}, unit {unit}, flags in column {flags}");
    let readings = pochahuic::column_values(file, column)?;
    for (reading, flag) in readings.into_iter().zip(pochahuic::column_flags(file, flags)?) {
        println!("{name}: {} flag {flag}", shown(reading));
    }
    Ok(())
}

/// Makes the correction of one list line, in the column that the line names, and says what stands there then.
fn correct(file: &mut [u8], line: &[u8]) -> Result<String, Refusal> {
    let order = pochahuic::read_list_line(line)?;
    let column = pochahuic::column_named(file, order.name)?;
    pochahuic::correct(file, order.row, column, order.millionths, order.decimals, order.flag)?;
    let value = shown(pochahuic::decimal(file, order.row, column)?);
    let flag = match flag_column(file, order.name) {
        Ok(flags) => format!(" flag {}", pochahuic::flag(file, order.row, flags)?),
        Err(_) => String::new(),
    };
    Ok(format!("row {}, {} {value}{flag}", order.row, String::from_utf8_lossy(order.name)))
}

fn print_profile(file: &[u8], k: u64) -> Result<(), Refusal> {
    let profile = pochahuic::profile(file, k)?;
    let key = |name: &str| {
        pochahuic::station(file, k, name.as_bytes())
            .map(|value| format!("{name} {}", String::from_utf8_lossy(value)))
    };
    let time =
        profile.time.map_or("None".to_string(), |(hour, minute)| format!("{hour:02}:{minute:02}"));
    let last = profile.first + profile.rows - 1;
    println!(
        "profile {k}: rows {} to {last}, {}, {}, CASTNO {}, DATE {:08}, time {time}",
        profile.first,
        key("EXPOCODE")?,
        key("STNNBR")?,
        profile.castno,
        profile.date
    );
    Ok(())
}

/// The rows as an importer takes them: every cell without the spaces at its ends, in one walk.
fn print_rows(file: &[u8], columns: u64) -> Result<(), Refusal> {
    for cell in pochahuic::walk(file)? {
        if cell.column == 1 {
            print!("row {}: ", cell.row);
        }
        let ending = if cell.column == columns { '\n' } else { ',' };
        print!("{}{ending}", String::from_utf8_lossy(cell.text));
    }
    Ok(())
}

fn main() -> Result<(), Box<dyn std::error::Error>> {
    let path = std::env::args().nth(1).ok_or("usage: file_k FILE")?;
    let mut file = std::fs::read(path)?;
    let checked = pochahuic::check(&file)?;
    let kind = if checked.kind == Kind::Ctd { "CTD" } else { "bottle" };
    println!(
        "{kind} file: {} columns, {} rows, {} profiles, {} missing",
        checked.columns, checked.rows, checked.profiles, checked.missing
    );
    for k in 1..=checked.profiles {
        print_profile(&file, k)?;
    }
    print_column(&file, "SALNTY")?;
    for line in [
        "2\tSALNTY\t35.1301\t2\n", "3\tCTDPRS\t10.8\t0\n", "1\tSALNT\t35.1301\t2\n",
        "1\tSALNTY\t-999.0000\t9\n",
    ] {
        match correct(&mut file, line.as_bytes()) {
            Ok(corrected) => println!("corrected: {corrected}"),
            Err(refusal) => println!("not corrected: {refusal}"),
        }
    }
    print_rows(&file, checked.columns)?;

    // a blank salinity is refused, with its place
    let salinity = pochahuic::column_named(&file, b"SALNTY")?;
    let place = pochahuic::cell_place(&file, 1, salinity)?;
    file[place].fill(b' ');
    if let Err(refusal) = pochahuic::check(&file) {
        println!("refused: {refusal}");
    }
    Ok(())
}
