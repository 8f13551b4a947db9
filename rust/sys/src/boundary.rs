/// The number of the boundary that is declared here. The library has a function with it in its name,
/// so that one of another boundary is refused when it is to be linked. It goes up with each change
/// of what crosses.
pub const BOUNDARY: u32 = 4;
