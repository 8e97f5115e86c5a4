//! Position tables and the debug id.
use beside::refusals::Row;

pub type Check = unsafe extern "C" fn(*const u8, usize, *mut [u64; 2]) -> u64;
pub type Resolve = unsafe extern "C" fn(*const u8, usize, u32, *mut [u64; 2]) -> u64;
pub type Encode =
    unsafe extern "C" fn(*const u32, usize, *const u32, usize, *const u32, usize, *mut u8, usize, *mut [u64; 2]) -> u64;
pub type DebugId = unsafe extern "C" fn(*const u8, usize, *const u8, usize, *mut [u64; 2]);

extern "C" {
    pub fn grain_pos_check(table: *const u8, len: usize, values: *mut [u64; 2]) -> u64;
    fn grain_pos_count(table: *const u8, len: usize, count: *mut u64) -> u64;
    pub fn grain_pos_resolve(table: *const u8, len: usize, address: u32, site: *mut [u64; 2]) -> u64;
    pub fn grain_pos_encode(
        addresses: *const u32,
        n: usize,
        lines: *const u32,
        m: usize,
        columns: *const u32,
        k: usize,
        out: *mut u8,
        room: usize,
        values: *mut [u64; 2],
    ) -> u64;
    pub fn grain_debug_id(table: *const u8, len: usize, chains: *const u8, more: usize, id: *mut [u64; 2]);
}

/// What `values` holds before a call is never what a call leaves.
const UNTOLD: [u64; 2] = [!0, !0];

pub fn check(table: &[u8]) -> Row {
    let mut values = UNTOLD;
    let number = unsafe { grain_pos_check(table.as_ptr(), table.len(), &mut values) };
    [number, values[0], values[1]]
}

/// The number and the count, which is 0 on a refusal: its reason is not told.
pub fn count(table: &[u8]) -> [u64; 2] {
    let mut count = !0;
    let number = unsafe { grain_pos_count(table.as_ptr(), table.len(), &mut count) };
    [number, count]
}

/// 1, line and column, or three times 0.
pub fn resolve(table: &[u8], address: u32) -> Row {
    let mut site = UNTOLD;
    let found = unsafe { grain_pos_resolve(table.as_ptr(), table.len(), address, &mut site) };
    [found, site[0], site[1]]
}

pub fn encode([addresses, lines, columns]: [&[u32]; 3], out: &mut [u8]) -> Row {
    let mut values = UNTOLD;
    let number = unsafe {
        grain_pos_encode(
            addresses.as_ptr(),
            addresses.len(),
            lines.as_ptr(),
            lines.len(),
            columns.as_ptr(),
            columns.len(),
            out.as_mut_ptr(),
            out.len(),
            &mut values,
        )
    };
    [number, values[0], values[1]]
}

pub fn debug_id(table: &[u8], chains: &[u8]) -> u128 {
    let mut id = UNTOLD;
    unsafe { grain_debug_id(table.as_ptr(), table.len(), chains.as_ptr(), chains.len(), &mut id) };
    u128::from(id[1]) << 64 | u128::from(id[0])
}
