//! The 96 bytes of a record, read and written as docs/record.md says.

use commonware_consensus::simplex::machine::{Certificate, Fields, Notarization, fields};

pub const LENGTH: usize = 96;

/// The certificate in the bytes, or the number of the refusal.
pub fn read(bytes: &[u8]) -> Result<Certificate, u8> {
    let bytes: &[u8; LENGTH] = bytes.try_into().map_err(|_| 1)?;
    let kind = bytes[0];
    if !(1..=3).contains(&kind) {
        return Err(2);
    }
    if bytes[1..8].iter().any(|byte| *byte != 0) {
        return Err(3);
    }
    if kind == 2 && bytes[24..64].iter().any(|byte| *byte != 0) {
        return Err(4);
    }
    let number = |at: usize| u64::from_be_bytes(bytes[at..at + 8].try_into().expect("eight bytes"));
    let half = |at: usize| bytes[at..at + 32].try_into().expect("32 bytes");
    let fields = Fields {
        epoch: number(8),
        view: number(16),
        parent: number(24),
        payload: half(32),
        proof: half(64),
    };
    Ok(match kind {
        1 => Certificate::Notarization(fields.notarization()),
        2 => fields.nullification(),
        _ => fields.finalization(),
    })
}

/// The bytes of a kind and of fields, as they stand.
pub fn frame(kind: u8, fields: &Fields) -> [u8; LENGTH] {
    let mut bytes = [0; LENGTH];
    bytes[0] = kind;
    bytes[8..16].copy_from_slice(&fields.epoch.to_be_bytes());
    bytes[16..24].copy_from_slice(&fields.view.to_be_bytes());
    bytes[24..32].copy_from_slice(&fields.parent.to_be_bytes());
    bytes[32..64].copy_from_slice(&fields.payload);
    bytes[64..].copy_from_slice(&fields.proof);
    bytes
}

pub fn write(certificate: &Certificate) -> [u8; LENGTH] {
    let (kind, fields) = fields(certificate);
    frame(kind, &fields)
}

pub fn name(kind: u8) -> &'static str {
    match kind {
        1 => "notarization",
        2 => "nullification",
        _ => "finalization",
    }
}

/// The kind and the view, as scripts show them.
pub fn shown(certificate: &Certificate) -> String {
    let (kind, fields) = fields(certificate);
    format!("{} {}", name(kind), fields.view)
}

/// The notarization that a verdict is on.
pub fn judged(certificate: Certificate) -> Option<Notarization> {
    match certificate {
        Certificate::Notarization(it) => Some(it),
        _ => None,
    }
}
