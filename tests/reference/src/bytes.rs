//! The bytes of a file: sparse, shared between copies, never changed in place.

use crate::radix::Radix;
use std::cell::OnceCell;
use std::rc::Rc;

pub const BLOCK: u64 = 4096;

const FNV_BASIS: u64 = 0xCBF2_9CE4_8422_2325;
const FNV_PRIME: u64 = 0x0000_0100_0000_01B3;

/// FNV-1a with 64 bits.
pub fn fnv(bytes: &[u8]) -> u64 {
    fnv_on(FNV_BASIS, bytes)
}

fn fnv_on(digest: u64, bytes: &[u8]) -> u64 {
    bytes.iter().fold(digest, |h, b| (h ^ u64::from(*b)).wrapping_mul(FNV_PRIME))
}

/// So many zeros more: each only multiplies.
fn fnv_zeros(digest: u64, mut count: u64) -> u64 {
    let mut factor = FNV_PRIME;
    let mut h = digest;
    while count > 0 {
        if count & 1 == 1 {
            h = h.wrapping_mul(factor);
        }
        factor = factor.wrapping_mul(factor);
        count >>= 1;
    }
    h
}

/// A block that is not there is zeros; what a block has beyond the end is zeros too.
#[derive(Clone, Default)]
pub struct Bytes {
    len: u64,
    blocks: Radix<Rc<[u8]>>,
    digest: OnceCell<u64>,
}

impl Bytes {
    pub fn len(&self) -> u64 {
        self.len
    }

    pub fn read(&self, from: u64, most: u64) -> Vec<u8> {
        let end = from.saturating_add(most).min(self.len);
        let mut out = Vec::new();
        let mut at = from;
        while at < end {
            let upto = end.min((at / BLOCK + 1) * BLOCK);
            match self.blocks.get(at / BLOCK) {
                Some(block) => {
                    let start = (at % BLOCK) as usize;
                    out.extend_from_slice(&block[start..start + (upto - at) as usize]);
                }
                None => out.resize(out.len() + (upto - at) as usize, 0),
            }
            at = upto;
        }
        out
    }

    /// What lies between the old end and the place becomes 0; no bytes change nothing.
    pub fn written(&self, from: u64, bytes: &[u8]) -> Bytes {
        if bytes.is_empty() {
            return self.clone();
        }
        let mut blocks = self.blocks.clone();
        let mut at = from;
        let mut rest = bytes;
        while !rest.is_empty() {
            let start = (at % BLOCK) as usize;
            let count = rest.len().min(BLOCK as usize - start);
            let mut block = match blocks.get(at / BLOCK) {
                Some(block) => block.to_vec(),
                None => vec![0; BLOCK as usize],
            };
            block[start..start + count].copy_from_slice(&rest[..count]);
            blocks.set(at / BLOCK, block.into());
            at += count as u64;
            rest = &rest[count..];
        }
        Bytes { len: self.len.max(at), blocks, digest: OnceCell::new() }
    }

    /// Cut, or longer with 0.
    pub fn resized(&self, len: u64) -> Bytes {
        let mut blocks = self.blocks.clone();
        if len < self.len {
            blocks.truncate(len.div_ceil(BLOCK));
            let kept = (len % BLOCK) as usize;
            if kept > 0 {
                if let Some(block) = blocks.get(len / BLOCK) {
                    let mut block = block.to_vec();
                    block[kept..].fill(0);
                    blocks.set(len / BLOCK, block.into());
                }
            }
        }
        Bytes { len, blocks, digest: OnceCell::new() }
    }

    pub fn digest(&self) -> u64 {
        *self.digest.get_or_init(|| {
            let mut h = FNV_BASIS;
            let mut at = 0;
            self.blocks.each(&mut |i, block| {
                h = fnv_zeros(h, i * BLOCK - at);
                let upto = self.len.min((i + 1) * BLOCK);
                h = fnv_on(h, &block[..(upto - i * BLOCK) as usize]);
                at = upto;
            });
            fnv_zeros(h, self.len - at)
        })
    }
}
