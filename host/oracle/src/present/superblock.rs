//! Superblocks loaded and stored by the original.

use super::refusal::elsewhere;
use super::store::Store;
use crate::config::STABLE_PAGE_SIZE;
use crate::stable::meta::{self, ZeroExtent};
use crate::{Refusal, Superblock, FIELDS};

pub fn fnv1a64(bytes: &[u8]) -> u64 {
    meta::fnv1a64(bytes)
}

/// Memory after the opening of an empty one.
pub fn fresh() -> Vec<u8> {
    Store::open(&[], 0, 1)
        .expect("room for a superblock")
        .snapshot()
}

/// The superblock in the first bytes of a memory of one stable page.
pub fn load(bytes: &[u8]) -> Result<Superblock, Refusal> {
    Store::unopened(bytes, 1, 1).superblock()
}

/// Memory after the superblock was stored in it.
pub fn store(memory: &[u8], block: &Superblock) -> Result<Vec<u8>, Refusal> {
    let count = memory.len() as u64 / STABLE_PAGE_SIZE;
    let mut store = Store::unopened(memory, count, count);
    store
        .within(|| from_numbers(block).store())
        .map_err(elsewhere)?;
    Ok(store.snapshot())
}

pub fn to_numbers(block: &meta::Superblock) -> Superblock {
    let fields: [u64; FIELDS] = [
        u64::from_le_bytes(block.magic),
        u64::from(block.version),
        u64::from(block.sqlite_page_size),
        block.db_size,
        block.schema_version,
        block.last_tx_id,
        block.flags,
        block.checksum,
        block.import_expected_checksum,
        block.import_written_until,
        block.import_total_size,
        block.import_base_offset,
        block.checksum_refresh_offset,
        block.checksum_refresh_hash,
        block.checksum_refresh_tx_id,
        block.db_base_offset,
        block.page_table_offset,
        block.page_count,
        block.layout_version,
        block.zero_extents.len() as u64,
        block.meta_checksum,
    ];
    Superblock {
        fields,
        runs: pairs(&block.zero_extents),
    }
}

/// The original counts its list, so the field of the count says nothing here.
fn from_numbers(block: &Superblock) -> meta::Superblock {
    let f = &block.fields;
    meta::Superblock {
        magic: f[0].to_le_bytes(),
        version: f[1] as u32,
        sqlite_page_size: f[2] as u32,
        db_size: f[3],
        schema_version: f[4],
        last_tx_id: f[5],
        flags: f[6],
        checksum: f[7],
        import_expected_checksum: f[8],
        import_written_until: f[9],
        import_total_size: f[10],
        import_base_offset: f[11],
        checksum_refresh_offset: f[12],
        checksum_refresh_hash: f[13],
        checksum_refresh_tx_id: f[14],
        db_base_offset: f[15],
        page_table_offset: f[16],
        page_count: f[17],
        layout_version: f[18],
        zero_extents: extents(&block.runs),
        meta_checksum: f[20],
    }
}

pub fn pairs(extents: &[ZeroExtent]) -> Vec<(u64, u64)> {
    let pair = |extent: &ZeroExtent| (extent.start_page, extent.end_page);
    extents.iter().map(pair).collect()
}

fn extents(runs: &[(u64, u64)]) -> Vec<ZeroExtent> {
    let extent = |&(start_page, end_page): &(u64, u64)| ZeroExtent {
        start_page,
        end_page,
    };
    runs.iter().map(extent).collect()
}
