// Rows in their fifteen bytes, in plain Rust, and rows to work on. Shared by the programs of this folder.

pub const ROW: usize = 15;

#[derive(Clone, Copy)]
pub struct Row {
    pub energy: bool,
    pub day: u16,
    pub hour: u8,
    pub stage: u8,
    pub supplier: u8,
    pub amount: i64,
}

pub fn read(bytes: &[u8]) -> Result<Row, i64> {
    let energy = match &bytes[..2] {
        b"EH" => true,
        b"PL" => false,
        _ => return Err(-31),
    };
    let row = Row {
        energy,
        day: u16::from_be_bytes([bytes[2], bytes[3]]),
        hour: bytes[4],
        stage: bytes[5],
        supplier: bytes[6],
        amount: i64::from_be_bytes(bytes[7..15].try_into().unwrap()),
    };
    let timely = if row.energy {
        (1..=25).contains(&row.hour) && (1..=2).contains(&row.stage)
    } else {
        row.hour == 0 && row.stage == 0
    };
    let lawful = timely
        && (1..=60_000).contains(&row.day)
        && (1..=32).contains(&row.supplier)
        && (-3_000_000_000..=3_000_000_000).contains(&row.amount)
        && row.amount != 0;
    if lawful { Ok(row) } else { Err(-32) }
}

pub fn take_in(rows: &[u8], memory: &mut [u8]) -> Result<usize, i64> {
    if rows.len() % ROW != 0 {
        return Err(-30);
    }
    for row in rows.chunks_exact(ROW) {
        read(row)?;
    }
    if rows.len() / ROW > (memory.len() / ROW).min(65_536) {
        return Err(-27);
    }
    memory[..rows.len()].copy_from_slice(rows);
    Ok(rows.len())
}

// Splitmix: numbers that look random, the same at every run.
pub fn draw(seed: &mut u64, below: u64) -> u64 {
    *seed = seed.wrapping_add(0x9E37_79B9_7F4A_7C15);
    let mut z = *seed;
    z = (z ^ (z >> 30)).wrapping_mul(0xBF58_476D_1CE4_E5B9);
    z = (z ^ (z >> 27)).wrapping_mul(0x94D0_49BB_1331_11EB);
    (z ^ (z >> 31)) % below
}

// Rows of ten days, of all hours and suppliers, both stages; every eleventh is a peak row. No amount is above the most.
pub fn rows(count: usize, most: u64) -> Vec<u8> {
    let mut bytes = Vec::with_capacity(count * ROW);
    let mut seed = 1;
    for i in 0..count {
        let peak = i % 11 == 0;
        let day = 9000 + draw(&mut seed, 10) as u16;
        let hour = 1 + draw(&mut seed, 25) as u8;
        let stage = 1 + draw(&mut seed, 2) as u8;
        let supplier = 1 + draw(&mut seed, 32) as u8;
        let amount = 1 + draw(&mut seed, most) as i64;
        let signed = if draw(&mut seed, 4) == 0 { -amount } else { amount };
        bytes.extend_from_slice(if peak { b"PL" } else { b"EH" });
        bytes.extend_from_slice(&day.to_be_bytes());
        bytes.extend_from_slice(&if peak { [0, 0] } else { [hour, stage] });
        bytes.push(supplier);
        bytes.extend_from_slice(&signed.to_be_bytes());
    }
    bytes
}
