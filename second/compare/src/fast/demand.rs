//! The unplayed demand of a booth's tasks.

#[derive(Clone, Copy, Default)]
pub struct Demand {
    left: [u32; 8],
    /// Bit k is set while task k has demand left.
    asking: u32,
}

impl Demand {
    #[inline]
    pub fn any(&self) -> bool {
        self.asking != 0
    }

    #[inline]
    pub fn add(&mut self, task: u32, demand: u32) {
        self.left[task as usize & 7] += demand;
        self.asking |= 1 << task;
    }

    /// The first task with demand, and how much it has left.
    #[inline]
    pub fn first(&self) -> Option<(u8, u32)> {
        let task = self.asking.trailing_zeros();
        self.any()
            .then(|| (task as u8, self.left[task as usize & 7]))
    }

    /// Takes off what a task has played, which is no more than it had left.
    #[inline]
    pub fn take(&mut self, task: u8, played: u32) {
        let left = &mut self.left[usize::from(task) & 7];
        *left -= played;
        self.asking &= !(u32::from(*left == 0) << task);
    }
}
