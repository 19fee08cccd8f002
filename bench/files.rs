//! Pictures as block files.

use super::pictures::Picture;
use super::twin;

/// A block file of the picture with so many blocks, each kind's rows spread over its blocks.
pub fn block_file(p: &Picture, blocks: usize) -> Vec<u8> {
    let records = [
        p.boxes.iter().map(|&b| vec![b]).collect::<Vec<_>>(),
        p.rows
            .chunks(2)
            .map(|r| r.iter().flat_map(|n| n.to_le_bytes()).collect())
            .collect(),
        p.arrows
            .chunks(4)
            .map(|a| {
                let ends = a[..2].iter().flat_map(|n| n.to_le_bytes());
                ends.chain([a[2] as u8, a[3] as u8]).collect()
            })
            .collect(),
    ];
    // The fewest blocks that hold each kind; what is left goes to the containments.
    let mut share: Vec<usize> = (records.iter().zip([500, 125, 83]))
        .map(|(rows, capacity)| rows.len().div_ceil(capacity))
        .collect();
    share[1] += blocks - share.iter().sum::<usize>();
    let mut file = Vec::new();
    for (kind, rows) in records.iter().enumerate() {
        for part in 0..share[kind] {
            let from = rows.len() * part / share[kind];
            let to = rows.len() * (part + 1) / share[kind];
            let number = (file.len() / 512) as u16;
            let mut block = vec![kind as u8 + 1, 0];
            block.extend(number.to_le_bytes());
            block.extend(((to - from) as u16).to_le_bytes());
            block.extend([0, 0]);
            block.extend(rows[from..to].concat());
            block.resize(508, 0);
            let check = twin::block_check(&block);
            block.extend(check.to_le_bytes());
            file.extend(block);
        }
    }
    file
}

/// The fewest blocks that hold the picture.
pub fn fewest_blocks(p: &Picture) -> usize {
    p.boxes.len().div_ceil(500)
        + (p.rows.len() / 2).div_ceil(125)
        + (p.arrows.len() / 4).div_ceil(83)
}
