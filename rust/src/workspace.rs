//! The two forms of publish, by the workspace that they take.

use crate::Shape;

/// Which workspace publishing takes. The public key, the station afterwards and every refusal are the same with both; only what is
/// too short for 11, [`Refusal::ShortWorkspace`](crate::Refusal::ShortWorkspace), differs.
///
/// ```
/// use shearcotter::{Name, Refusal, Shape, Station, Workspace};
///
/// let largest = Shape::MCELIECE8192128;
/// assert_eq!(Workspace::BOTH.map(|workspace| workspace.length(largest)), [1_703_936, 692_224]);
///
/// let mut station = Station::fresh();
/// station.load(Name::A, &[4, 6, 0, 1, 0, 9, 0, 13, 0, 15, 0, 14, 0, 11, 0, 1, 0, 0, 0])?;
/// assert_eq!(station.publish_with(Name::A, Workspace::Small)?, station.publish(Name::A)?);
/// # Ok::<(), Refusal>(())
/// ```
#[derive(Clone, Copy, PartialEq, Eq, Hash, Debug, Default)]
pub enum Workspace {
    /// m·t × ceil(n/8) bytes, for all columns of the matrix at once: what [`publish`](crate::Station::publish) takes.
    #[default]
    Full,
    /// 2·m·t × ceil(m·t/8) bytes, for some columns after another: 692,224 at most, whatever n is. They are fewer than those of
    /// [`Full`](Workspace::Full) where n is above 16·ceil(m·t/8), as at the standard's shapes.
    Small,
}

impl Workspace {
    /// Both, the default first.
    pub const BOTH: [Workspace; 2] = [Workspace::Full, Workspace::Small];

    /// Bytes of it for keys of a shape.
    pub fn length(self, shape: Shape) -> usize {
        match self {
            Workspace::Full => shape.workspace_length(),
            Workspace::Small => shape.small_workspace_length(),
        }
    }
}
