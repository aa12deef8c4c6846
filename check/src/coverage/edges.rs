//! Accesses at the edges of the areas.

use super::table::EDGE;
use super::watch::Step;
use super::Coverage;
use crate::model::job::Access;
use crate::model::map::*;

impl Step<'_, '_> {
    /// Accesses that the part looked up in its map.
    pub(super) fn count_edges(&self, coverage: &mut Coverage, access: Access) {
        if matches!(self.answer.code, 10 | 15) {
            return;
        }
        let areas = [
            (MAIN, main_len(self.part.sectors)),
            (SYSTEM, SYSTEM_LEN),
            (OTP, OTP_LEN),
            (OPTIONS, OPTIONS_LEN),
            (REGISTERS, REGISTERS_LEN),
            (SRAM, SRAM_LEN),
        ];
        let first = u64::from(access.address);
        let end = first + u64::from(access.width);
        for (area, (start, len)) in areas.into_iter().enumerate() {
            let area_start = u64::from(start);
            let area_end = area_start + len as u64;
            let touches = [
                first < area_start && end > area_start,
                first == area_start,
                end == area_end,
                first < area_end && end > area_end,
            ];
            for (kind, touch) in touches.into_iter().enumerate() {
                coverage.count_if(EDGE, EDGE.1[4 * area + kind], touch);
            }
        }
    }
}
