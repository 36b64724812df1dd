
/// Reach for the comparison: the private buffer and passes, unchanged.
impl LatticeBoltzmann2D {
    pub fn post(&mut self) -> &mut Vec<f64> {
        &mut self.f_temp
    }

    pub fn collide_only(&mut self) {
        self.collide();
    }

    pub fn stream_only(&mut self) {
        self.stream();
        self.apply_boundaries();
    }
}
