//! Building CDBs, lists and pages, right ones and spoiled ones.

use crate::bytes::lun_bytes;

/// The 24 bytes of an identifier and its type.
pub type Named = (u8, [u8; 24]);

pub fn cdb(operation: u8, action: u8, middle: u64, length: usize) -> [u8; 16] {
    let mut cdb = [0; 16];
    cdb[0] = operation;
    cdb[1] = action;
    cdb[2..10].copy_from_slice(&middle.to_be_bytes());
    cdb[10..14].copy_from_slice(&(length as u32).to_be_bytes());
    cdb
}

pub fn lun(nn: u8) -> u64 {
    u64::from_be_bytes(lun_bytes(nn))
}

/// A LUACD descriptor of two LUNs.
pub fn descriptor(lun: u64, default: u64) -> [u8; 20] {
    let mut bytes = [0; 20];
    bytes[4..12].copy_from_slice(&lun.to_be_bytes());
    bytes[12..20].copy_from_slice(&default.to_be_bytes());
    bytes
}

pub fn grant_page(named: Named, keeps: bool, descriptors: &[[u8; 20]]) -> Vec<u8> {
    identified(0, named, keeps, descriptors)
}

pub fn grant_all_page(named: Named, keeps: bool) -> Vec<u8> {
    identified(1, named, keeps, &[])
}

fn identified(code: u8, (kind, id): Named, keeps: bool, descriptors: &[[u8; 20]]) -> Vec<u8> {
    let mut body = vec![u8::from(keeps) << 7, kind, 0, 24];
    body.extend(id);
    body.extend(descriptors.concat());
    page(code, &body)
}

pub fn tokens_page(tokens: &[u64]) -> Vec<u8> {
    let body: Vec<u8> = tokens
        .iter()
        .flat_map(|token| token.to_be_bytes())
        .collect();
    page(2, &body)
}

pub fn all_tokens_page() -> Vec<u8> {
    page(3, &[])
}

/// A page of any code with any body that a page length can count.
pub fn page(code: u8, body: &[u8]) -> Vec<u8> {
    let length = (body.len() as u16).to_be_bytes();
    let mut page = vec![code, 0, length[0], length[1]];
    page.extend(body);
    page
}

/// A MANAGE ACL list before it becomes bytes.
#[derive(Clone)]
pub struct Sketch {
    pub key: u64,
    pub new_key: u64,
    pub flush: bool,
    pub generation: u32,
    pub pages: Vec<Vec<u8>>,
    /// How many bytes are cut off at the end.
    pub cut: usize,
}

impl Sketch {
    pub fn bytes(&self) -> Vec<u8> {
        let mut list = vec![0; 4];
        list.extend(self.key.to_be_bytes());
        list.extend(self.new_key.to_be_bytes());
        list.extend([0, u8::from(self.flush) << 7, 0, 0]);
        list.extend(self.generation.to_be_bytes());
        list.extend(self.pages.concat());
        list.truncate(list.len().saturating_sub(self.cut));
        list
    }
}
