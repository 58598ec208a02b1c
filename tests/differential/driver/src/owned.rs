//! Pages that own their lists, so that the runs can draw and spoil them.

use lanegravel_binding::settings::{FusionParams, RulingsParams};
use lanegravel_binding::{boxes, detect, layout, segments};

/// A struct that owns the lists which the binding's borrows.
macro_rules! owned {
    (
        $(#[$about:meta])*
        $name:ident for $given:ident { $($value:ident: $type:ty,)* } lists { $($list:ident: $entry:ty,)* }
    ) => {
        $(#[$about])*
        #[derive(Clone, Debug, Default)]
        pub struct $name {
            $(pub $value: $type,)*
            $(pub $list: Vec<$entry>,)*
        }

        impl $name {
            /// What the binding is given.
            pub fn given(&self) -> $given::Page<'_> {
                $given::Page { $($value: self.$value,)* $($list: &self.$list,)* }
            }
        }
    };
}

owned! {
    /// A page for `level_gray`, `to_page` and `rect_to_page`.
    LayoutPage for layout {
        page_width: usize,
        page_height: usize,
        width: usize,
        height: usize,
    }
    lists {
        gray: u8,
        shear: i32,
        shear_x: i32,
    }
}

owned! {
    /// A page for `segments`.
    PiecesPage for segments {
        width: usize,
        height: usize,
        xheight: f64,
        params: RulingsParams,
    }
    lists {
        raster: u8,
        pieces: u32,
    }
}

owned! {
    /// A page for `boxes`.
    GlyphsPage for boxes {
        width: usize,
        height: usize,
        dpi: u16,
        xheight: f64,
        params: RulingsParams,
    }
    lists {
        ink: u8,
        glyphs: u32,
    }
}

owned! {
    /// A page for `detect`.
    WholePage for detect {
        page_width: usize,
        page_height: usize,
        width: usize,
        height: usize,
        dpi: u16,
        xheight: f64,
        params: RulingsParams,
        fusion: FusionParams,
    }
    lists {
        gray: u8,
        ink: u8,
        shear: i32,
        shear_x: i32,
        pieces: u32,
        glyphs: u32,
    }
}
