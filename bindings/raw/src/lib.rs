//! include/hailgully.h for Rust, as it stands: the structs with their layout, and the calls. The header says what each means.

use std::mem::{offset_of, size_of};

macro_rules! laid_out {
    ($name:ident, $size:literal, $($field:ident at $offset:literal: $type:ty),+) => {
        #[doc = concat!("The header's struct of ", $size, " bytes.")]
        #[repr(C)]
        #[derive(Clone, Copy, Debug, Default)]
        pub struct $name {
            $(pub $field: $type,)+
        }
        const _: () = assert!(size_of::<$name>() == $size $(&& offset_of!($name, $field) == $offset)+);

        /// Every field is the same to the bit, so that 0.0 and -0.0 differ.
        impl PartialEq for $name {
            fn eq(&self, other: &$name) -> bool {
                true $(&& self.$field.to_le_bytes() == other.$field.to_le_bytes())+
            }
        }
        impl Eq for $name {}
    };
}

impl HgRefusal {
    /// Its three numbers as bytes, one after the other.
    fn to_le_bytes(self) -> [u8; 16] {
        (u128::from(self.number) | u128::from(self.ordinal) << 32 | u128::from(self.place) << 64).to_le_bytes()
    }
}

laid_out!(HgRefusal, 16, number at 0: u32, ordinal at 4: u32, place at 8: u64);
laid_out!(HgWritten, 24, refusal at 0: HgRefusal, length at 16: u64);
laid_out!(HgPlaneCell, 40, refusal at 0: HgRefusal, level at 16: u32, west at 20: i32, south at 24: i32, width at 28: u32, height at 32: u32);
laid_out!(
    HgSpaceCell, 48, refusal at 0: HgRefusal, level at 16: u32, west at 20: i32, south at 24: i32, width at 28: u32, height at 32: u32,
    floor at 36: i32, thickness at 40: u32
);
laid_out!(HgUnits, 24, refusal at 0: HgRefusal, longitude at 16: i32, latitude at 20: i32);
laid_out!(HgBox, 48, refusal at 0: HgRefusal, west at 16: f64, south at 24: f64, width at 32: f64, height at 40: f64);
laid_out!(
    HgReservation, 44, live at 0: u32, flight at 4: u32, level at 8: u32, west at 12: i32, south at 16: i32, width at 20: u32, height at 24: u32,
    floor at 28: i32, thickness at 32: u32, start at 36: u32, end at 40: u32
);
laid_out!(HgBooked, 24, refusal at 0: HgRefusal, at at 16: u64);
laid_out!(HgPart, 40, refusal at 0: HgRefusal, start at 16: u64, name_length at 24: u64, code_length at 32: u64);

extern "C" {
    pub fn hg_plane_write(level: i64, longitude: i64, latitude: i64, line: *mut u8, length: usize, at: usize) -> HgWritten;
    pub fn hg_plane_read(code: *const u8, length: usize) -> HgPlaneCell;
    pub fn hg_space_write(
        edition: i64,
        level: i64,
        longitude: i64,
        latitude: i64,
        layer: i64,
        line: *mut u8,
        length: usize,
        at: usize,
    ) -> HgWritten;
    pub fn hg_space_read(edition: i64, code: *const u8, length: usize) -> HgSpaceCell;
    pub fn hg_reference_write(
        base: *const u8,
        base_length: usize,
        target: *const u8,
        target_length: usize,
        line: *mut u8,
        length: usize,
        at: usize,
    ) -> HgWritten;
    pub fn hg_reference_read(code: *const u8, code_length: usize, line: *mut u8, length: usize, at: usize) -> HgWritten;
    pub fn hg_arcseconds(longitude: f64, latitude: f64) -> HgUnits;
    pub fn hg_plane_box(code: *const u8, length: usize) -> HgBox;
    pub fn hg_book_add_plane(
        code: *const u8,
        code_length: usize,
        flight: u32,
        start: u32,
        end: u32,
        book: *mut HgReservation,
        length: usize,
    ) -> HgBooked;
    pub fn hg_book_add_ground(
        code: *const u8,
        code_length: usize,
        flight: u32,
        start: u32,
        end: u32,
        book: *mut HgReservation,
        length: usize,
    ) -> HgBooked;
    pub fn hg_book_add_space(
        code: *const u8,
        code_length: usize,
        flight: u32,
        start: u32,
        end: u32,
        book: *mut HgReservation,
        length: usize,
    ) -> HgBooked;
    pub fn hg_book_release(flight: u32, book: *mut HgReservation, length: usize) -> HgBooked;
    pub fn hg_place_find(name: *const u8, name_length: usize, places: *const u8, places_length: usize) -> HgRefusal;
    pub fn hg_place_part(name: *const u8, name_length: usize, places: *const u8, places_length: usize) -> HgPart;
    pub fn hg_short_read(
        code: *const u8,
        code_length: usize,
        places: *const u8,
        places_length: usize,
        line: *mut u8,
        length: usize,
        at: usize,
    ) -> HgWritten;
}

/// The same calls on whole slices: the pointer and the length come from one slice, so the library gets memory that it may read, or write, for the
/// time of the call, and no line or book of reservations overlaps what is read.
pub mod lent {
    use crate::{HgBooked, HgBox, HgPart, HgPlaneCell, HgRefusal, HgReservation, HgSpaceCell, HgUnits, HgWritten};

    #[inline(always)]
    pub fn plane_write(level: i64, longitude: i64, latitude: i64, line: &mut [u8], at: usize) -> HgWritten {
        unsafe { crate::hg_plane_write(level, longitude, latitude, line.as_mut_ptr(), line.len(), at) }
    }

    #[inline(always)]
    pub fn plane_read(code: &[u8]) -> HgPlaneCell {
        unsafe { crate::hg_plane_read(code.as_ptr(), code.len()) }
    }

    #[inline(always)]
    pub fn space_write(edition: i64, level: i64, longitude: i64, latitude: i64, layer: i64, line: &mut [u8], at: usize) -> HgWritten {
        unsafe { crate::hg_space_write(edition, level, longitude, latitude, layer, line.as_mut_ptr(), line.len(), at) }
    }

    #[inline(always)]
    pub fn space_read(edition: i64, code: &[u8]) -> HgSpaceCell {
        unsafe { crate::hg_space_read(edition, code.as_ptr(), code.len()) }
    }

    #[inline(always)]
    pub fn reference_write(base: &[u8], target: &[u8], line: &mut [u8], at: usize) -> HgWritten {
        unsafe { crate::hg_reference_write(base.as_ptr(), base.len(), target.as_ptr(), target.len(), line.as_mut_ptr(), line.len(), at) }
    }

    #[inline(always)]
    pub fn reference_read(code: &[u8], line: &mut [u8], at: usize) -> HgWritten {
        unsafe { crate::hg_reference_read(code.as_ptr(), code.len(), line.as_mut_ptr(), line.len(), at) }
    }

    #[inline(always)]
    pub fn arcseconds(longitude: f64, latitude: f64) -> HgUnits {
        unsafe { crate::hg_arcseconds(longitude, latitude) }
    }

    #[inline(always)]
    pub fn plane_box(code: &[u8]) -> HgBox {
        unsafe { crate::hg_plane_box(code.as_ptr(), code.len()) }
    }

    #[inline(always)]
    pub fn book_add_plane(code: &[u8], flight: u32, start: u32, end: u32, book: &mut [HgReservation]) -> HgBooked {
        unsafe { crate::hg_book_add_plane(code.as_ptr(), code.len(), flight, start, end, book.as_mut_ptr(), book.len()) }
    }

    #[inline(always)]
    pub fn book_add_ground(code: &[u8], flight: u32, start: u32, end: u32, book: &mut [HgReservation]) -> HgBooked {
        unsafe { crate::hg_book_add_ground(code.as_ptr(), code.len(), flight, start, end, book.as_mut_ptr(), book.len()) }
    }

    #[inline(always)]
    pub fn book_add_space(code: &[u8], flight: u32, start: u32, end: u32, book: &mut [HgReservation]) -> HgBooked {
        unsafe { crate::hg_book_add_space(code.as_ptr(), code.len(), flight, start, end, book.as_mut_ptr(), book.len()) }
    }

    #[inline(always)]
    pub fn book_release(flight: u32, book: &mut [HgReservation]) -> HgBooked {
        unsafe { crate::hg_book_release(flight, book.as_mut_ptr(), book.len()) }
    }

    #[inline(always)]
    pub fn place_find(name: &[u8], places: &[u8]) -> HgRefusal {
        unsafe { crate::hg_place_find(name.as_ptr(), name.len(), places.as_ptr(), places.len()) }
    }

    #[inline(always)]
    pub fn place_part(name: &[u8], places: &[u8]) -> HgPart {
        unsafe { crate::hg_place_part(name.as_ptr(), name.len(), places.as_ptr(), places.len()) }
    }

    #[inline(always)]
    pub fn short_read(code: &[u8], places: &[u8], line: &mut [u8], at: usize) -> HgWritten {
        unsafe { crate::hg_short_read(code.as_ptr(), code.len(), places.as_ptr(), places.len(), line.as_mut_ptr(), line.len(), at) }
    }
}
