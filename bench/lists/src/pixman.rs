//! pixman's fill and copy at depth 8, where it is installed. A pixel is a byte there, and bytes lie in plain order, so
//! it does the same work on the same bytes, though not the same picture.

use crate::contests::Contestant;

/// A rectangle of bytes that is to be filled or copied to: its place in rows of so many bytes, and its size.
#[derive(Clone, Copy)]
#[cfg_attr(not(pixman), allow(dead_code))]
pub struct Area {
    pub x: usize,
    pub y: usize,
    pub width: usize,
    pub height: usize,
}

/// Fills areas of a screen of its own, one after the other.
#[cfg(pixman)]
pub fn filling(screen: usize, stride: usize, areas: Vec<Area>) -> Option<Contestant<'static>> {
    let mut bytes = vec![0; screen];
    let mut target = library::Bitmap::over(&mut bytes, stride);
    Some(Box::new(move |times| {
        for k in 0..times {
            for &area in &areas {
                target.fill(area, k as u8 | 1);
            }
        }
        let last = areas[areas.len() - 1];
        assert_ne!(bytes[last.y * stride + last.x], 0, "pixman's fill");
    }))
}

#[cfg(not(pixman))]
pub fn filling(_screen: usize, _stride: usize, _areas: Vec<Area>) -> Option<Contestant<'static>> {
    None
}

/// Copies an area from a column and a row of another bitmap, of rows of so many bytes.
#[cfg(pixman)]
pub fn copying(screen: usize, strides: [usize; 2], from: [usize; 2], area: Area) -> Option<Contestant<'static>> {
    let (mut target_bytes, mut source_bytes) = (vec![0; screen], vec![1; strides[0] * (from[1] + area.height)]);
    let source = library::Bitmap::over(&mut source_bytes, strides[0]);
    let mut target = library::Bitmap::over(&mut target_bytes, strides[1]);
    Some(Box::new(move |times| {
        for _ in 0..times {
            target.copy(&source, from, area);
        }
        let last = (area.y + area.height - 1) * strides[1] + area.x + area.width - 1;
        assert_eq!(target_bytes[last], source_bytes[0], "pixman's copy");
    }))
}

#[cfg(not(pixman))]
pub fn copying(_screen: usize, _strides: [usize; 2], _from: [usize; 2], _area: Area) -> Option<Contestant<'static>> {
    None
}

/// The part of pixman's face that is used here.
#[cfg(pixman)]
mod library {
    use super::Area;
    use std::ffi::{c_int, c_void};

    const A8: c_int = 0x0801_8000;
    const SRC: c_int = 1;

    #[repr(C)]
    struct Image {
        _private: [u8; 0],
    }

    extern "C" {
        fn pixman_fill(
            bits: *mut u32,
            stride: c_int,
            bpp: c_int,
            x: c_int,
            y: c_int,
            width: c_int,
            height: c_int,
            filler: u32,
        ) -> c_int;
        fn pixman_image_create_bits(
            format: c_int,
            width: c_int,
            height: c_int,
            bits: *mut c_void,
            stride: c_int,
        ) -> *mut Image;
        fn pixman_image_unref(image: *mut Image) -> c_int;
        fn pixman_image_composite32(
            op: c_int,
            source: *mut Image,
            mask: *mut Image,
            target: *mut Image,
            source_x: i32,
            source_y: i32,
            mask_x: i32,
            mask_y: i32,
            x: i32,
            y: i32,
            width: i32,
            height: i32,
        );
    }

    /// An image over bytes that outlive it.
    pub struct Bitmap {
        image: *mut Image,
        bits: *mut u32,
        stride: usize,
    }

    impl Bitmap {
        /// The bytes as rows of `stride` pixels. They must stay where they are as long as the bitmap is used.
        pub fn over(bytes: &mut [u8], stride: usize) -> Bitmap {
            assert_eq!((stride % 4, bytes.as_ptr() as usize % 4), (0, 0), "pixman wants words of 32 bits");
            let bits = bytes.as_mut_ptr().cast::<u32>();
            let height = bytes.len() / stride;
            // SAFETY: the image has as many rows as lie in the bytes.
            let image = unsafe {
                pixman_image_create_bits(A8, stride as c_int, height as c_int, bits.cast(), stride as c_int)
            };
            assert!(!image.is_null(), "pixman's image");
            Bitmap { image, bits, stride }
        }

        pub fn fill(&mut self, area: Area, value: u8) {
            let [x, y, width, height] = [area.x, area.y, area.width, area.height].map(|n| n as c_int);
            let filler = u32::from(value) * 0x0101_0101;
            // SAFETY: the area lies in the image.
            let filled = unsafe { pixman_fill(self.bits, (self.stride / 4) as c_int, 8, x, y, width, height, filler) };
            assert_eq!(filled, 1, "pixman_fill");
        }

        pub fn copy(&mut self, source: &Bitmap, [from_x, from_y]: [usize; 2], area: Area) {
            let [x, y, width, height] = [area.x, area.y, area.width, area.height].map(|n| n as i32);
            let (from_x, from_y) = (from_x as i32, from_y as i32);
            let (none, from, to) = (std::ptr::null_mut(), source.image, self.image);
            // SAFETY: both images are alive, and pixman crops the area to them.
            unsafe { pixman_image_composite32(SRC, from, none, to, from_x, from_y, 0, 0, x, y, width, height) };
        }
    }

    impl Drop for Bitmap {
        fn drop(&mut self) {
            // SAFETY: the image is this bitmap's own.
            unsafe { pixman_image_unref(self.image) };
        }
    }
}
