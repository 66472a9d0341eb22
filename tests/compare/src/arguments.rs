//! Arguments that several operations take.

#[derive(Debug)]
pub struct Record {
    pub sizes: Vec<u64>,
    pub ticks: Vec<u64>,
    pub ts: u64,
    pub nu: u64,
}

#[derive(Debug)]
pub struct Asked {
    pub rate: u64,
    pub buffer: u64,
    pub fullness: u64,
}
