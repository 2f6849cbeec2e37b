//! The proved library, as include/petrolyaz.h declares it: a slice is a pointer and a length.

use crate::answers::{Answer, Places};
use crate::reference::Tables;

macro_rules! questions {
    ($($question:ident($($parameter:ident: $kind:ty),*);)*) => {
        extern "C" {
            $(fn $question(
                pid: *const u8, pid_length: usize,
                pic: *const u8, pic_length: usize,
                plf: *const u8, plf_length: usize,
                pcf: *const u8, pcf_length: usize,
                caf: *const u8, caf_length: usize,
                cap: *const u8, cap_length: usize,
                txf: *const u8, txf_length: usize,
                txp: *const u8, txp_length: usize,
                ocf: *const u8, ocf_length: usize,
                ocp: *const u8, ocp_length: usize,
                mcf: *const u8, mcf_length: usize,
                $($parameter: $kind,)*
                answer: *mut Places,
            ) -> u64;)*
        }
    };
}

extern "C" {
    fn petrolyaz_version() -> u32;
}

questions! {
    petrolyaz_import(
        cells: *mut u16, cells_length: usize, positions: *mut u16, positions_length: usize
    );
    petrolyaz_identify(packet: *const u8, packet_length: usize);
    petrolyaz_index(rows: *mut u16, rows_length: usize);
    petrolyaz_search(packet: *const u8, packet_length: usize, index: *const u16, index_length: usize);
    petrolyaz_extract(
        packet: *const u8, packet_length: usize, name: *const u8, name_length: usize, occurrence: usize
    );
    petrolyaz_engineer(
        packet: *const u8, packet_length: usize, name: *const u8, name_length: usize, occurrence: usize
    );
    petrolyaz_limit_step(
        packet: *const u8, packet_length: usize, name: *const u8, name_length: usize,
        state: *const [i64; 5]
    );
}

/// Asks a question of eleven tables with these places for its answer.
macro_rules! ask {
    ($question:ident, $tables:expr, $places:expr, $($argument:expr),*) => {{
        let [pid, pic, plf, pcf, caf, cap, txf, txp, ocf, ocp, mcf] = *$tables;
        let mut places = $places;
        // Sound: every pointer goes with the length of its slice, and the mutable ones are lent to this call alone.
        let result = unsafe {
            $question(
                pid.as_ptr(), pid.len(), pic.as_ptr(), pic.len(), plf.as_ptr(), plf.len(),
                pcf.as_ptr(), pcf.len(), caf.as_ptr(), caf.len(), cap.as_ptr(), cap.len(),
                txf.as_ptr(), txf.len(), txp.as_ptr(), txp.len(), ocf.as_ptr(), ocf.len(),
                ocp.as_ptr(), ocp.len(), mcf.as_ptr(), mcf.len(), $($argument,)* &mut places,
            )
        };
        Answer { result, places }
    }};
}

pub fn import(tables: &Tables, cells: &mut [u16], positions: &mut [u16], places: Places) -> Answer {
    let (cells, cells_length) = (cells.as_mut_ptr(), cells.len());
    ask!(petrolyaz_import, tables, places, cells, cells_length, positions.as_mut_ptr(), positions.len())
}

pub fn identify(tables: &Tables, packet: &[u8], places: Places) -> Answer {
    ask!(petrolyaz_identify, tables, places, packet.as_ptr(), packet.len())
}

/// The numbers of the index's rows, from the first place on.
pub fn index(tables: &Tables, rows: &mut [u16], places: Places) -> Answer {
    ask!(petrolyaz_index, tables, places, rows.as_mut_ptr(), rows.len())
}

pub fn search(tables: &Tables, packet: &[u8], index: &[u16], places: Places) -> Answer {
    let (packet, packet_length) = (packet.as_ptr(), packet.len());
    ask!(petrolyaz_search, tables, places, packet, packet_length, index.as_ptr(), index.len())
}

pub fn extract(tables: &Tables, packet: &[u8], name: &[u8], occurrence: usize, places: Places) -> Answer {
    let (packet, packet_length) = (packet.as_ptr(), packet.len());
    ask!(petrolyaz_extract, tables, places, packet, packet_length, name.as_ptr(), name.len(), occurrence)
}

pub fn engineer(tables: &Tables, packet: &[u8], name: &[u8], occurrence: usize, places: Places) -> Answer {
    let (packet, packet_length) = (packet.as_ptr(), packet.len());
    ask!(petrolyaz_engineer, tables, places, packet, packet_length, name.as_ptr(), name.len(), occurrence)
}

/// The state as five numbers: fresh, APID, count, run, announced.
pub fn limit_step(tables: &Tables, packet: &[u8], name: &[u8], state: [i64; 5], places: Places) -> Answer {
    let (packet, packet_length) = (packet.as_ptr(), packet.len());
    ask!(petrolyaz_limit_step, tables, places, packet, packet_length, name.as_ptr(), name.len(), &state)
}

/// The interface's version, which include/petrolyaz.h tells too.
pub fn version() -> u32 {
    // Sound: it takes nothing and keeps nothing.
    unsafe { petrolyaz_version() }
}
