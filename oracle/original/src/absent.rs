//! Stand-ins for what the original's files name but the ported parts of them
//! do not run: they only have to be there.

/// The entity system.
pub mod bevy_ecs {
    pub mod prelude {
        pub use resource::Resource;
    }
}

/// Random numbers.
pub mod rand {
    pub trait Rng {}

    pub mod rngs {
        pub struct StdRng;
    }
}

/// The data of block shapes.
pub mod unastar_data {
    pub mod shapes {
        pub struct ShapeBox;
        pub struct ShapeRef;
    }
}
