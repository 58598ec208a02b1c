//! Stands for binarize, which layout.rs calls to make an ink mask from a page. Never run: a
//! comparison gives the ink mask itself.

pub mod local {
    use crate::params::SauvolaParams;

    pub fn sauvola(_gray: &[u8], _width: usize, _height: usize, _p: &SauvolaParams) -> Vec<u8> {
        unimplemented!("no comparison makes an ink mask")
    }
}
