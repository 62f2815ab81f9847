// No figure before this: all engines give the same records.
use crate::direct::Direct;
use crate::engine::{read_all, Digest, Engine, Out, PIECE};
use crate::engines::{DIRECT, OURS};
use crate::inputs::Case;

/// Holds every engine's records against those of the direct comparison. Gives their number, or what differs.
pub fn agree(engines: &mut [(&'static str, Box<dyn Engine>)], case: &Case) -> Result<u64, String> {
    let mut out = Out::counting();
    let mut direct = Direct::new(&case.tags);
    read_all(&mut direct, &case.input, &mut out);
    if out.total == 0 {
        return Err("no record to agree on".to_string());
    }
    let expected = digest(&mut direct, &case.input);
    for (name, engine) in engines {
        let found = digest(engine.as_mut(), &case.input);
        same(name, &expected, &found)?;
    }
    Ok(out.total)
}

fn digest(engine: &mut dyn Engine, input: &[u8]) -> Digest {
    let mut out = Out::digesting(input.len());
    read_all(engine, input, &mut out);
    out.digest()
}

fn same(name: &str, expected: &Digest, found: &Digest) -> Result<(), String> {
    if let Some(piece) =
        (0..expected.pieces.len()).find(|i| expected.pieces[*i] != found.pieces[*i])
    {
        let (from, to) = (piece * PIECE, (piece + 1) * PIECE);
        return Err(format!(
            "'{name}' and '{DIRECT}' give different records for bytes {from} to {to}"
        ));
    }
    if OURS.contains(&name) && !found.in_order {
        return Err(format!(
            "'{name}' gives records that are not in order of end, then tag"
        ));
    }
    Ok(())
}
