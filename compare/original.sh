# Builds the original lidar.rs as the crate threecrate_io, with stand-ins for what it needs beside std.
# For compare/run and bench/run, which read this from the repository's root and set lidar_rs and target.
# lidar.rs itself is no part of the repository.

DEFAULT_RS=../shared/docs/src/threecrate-io/src/lidar.rs

# What is missing for a build, in words; nothing where all is there.
missing() {
    if ! command -v rustc >/dev/null; then
        echo "there is no rustc"
    elif ! command -v cc >/dev/null; then
        echo "there is no cc, by which rustc links"
    elif [ ! -f "$lidar_rs" ]; then
        echo "there is no lidar.rs at $lidar_rs (LIDAR_RS names another place)"
    elif [ "$(uname -m)" != x86_64 ]; then
        echo "the static library links on x86-64 only"
    fi
}

# 01-scope.md: the Rust as a release build decides, so sums wrap and nothing is asserted.
build() {
    rustc --edition 2021 -O -C overflow-checks=off -C debug-assertions=off \
        -L dependency="$target" --out-dir "$target" "$@"
}

# Replaces a text of the original, which must be there exactly once.
replace() {
    local before=${original%%"$1"*} after=${original#*"$1"}
    if [ "$before$1$after" != "$original" ] || [[ $after == *"$1"* ]]; then
        printf 'the original does not have this exactly once: %s\n' "$1" >&2
        exit 1
    fi
    original=$before$2$after
}

# Cuts the readers of captures in two, so that the second part takes payloads.
payloads_apart() {
    replace '        if payloads.is_empty() {
            return Err(Error::InvalidData(
                "No Velodyne' '        Self::read_payloads(&payloads)
    }

    pub fn read_payloads(payloads: &[Vec<u8>]) -> Result<PointCloud<Point3f>> {
        if payloads.is_empty() {
            return Err(Error::InvalidData(
                "No Velodyne'
    replace '        for p in &payloads {' '        for p in payloads {'
    replace '        if payloads.is_empty() {
            return Err(Error::InvalidData(format!(
                "No Ouster' '        self.read_payloads(&payloads)
    }

    pub fn read_payloads(&self, payloads: &[Vec<u8>]) -> Result<PointCloud<Point3f>> {
        if payloads.is_empty() {
            return Err(Error::InvalidData(format!(
                "No Ouster'
    replace '        for payload in &payloads {' '        for payload in payloads {'
}

# Has the original push the values just before the angles become radians or sines.
polar() {
    replace '            let el = el_deg.to_radians();
            let az = az_deg.to_radians();
            let cos_el = el.cos();
            points.push(Point3f::new(
                distance * cos_el * az.sin(),
                distance * cos_el * az.cos(),
                distance * el.sin(),
            ));' '            points.push(Point3f::new(distance, el_deg, az_deg));'
    replace '                let cos_az = azimuth.cos();
                let sin_az = azimuth.sin();
' ''
    replace '                    let alt = self.beam_altitudes[ch].to_radians();
                    let cos_alt = alt.cos();

                    points.push(Point3f::new(
                        r * cos_alt * cos_az,
                        r * cos_alt * sin_az,
                        r * alt.sin(),
                    ));' '                    points.push(Point3f::new(r, self.beam_altitudes[ch], azimuth));'
    replace '    let theta = (theta_cdeg as f32 * 0.01_f32).to_radians();
    let phi = (phi_cdeg as f32 * 0.01_f32).to_radians();
    let sin_t = theta.sin();
    Point3f::new(
        r * sin_t * phi.cos(),
        r * sin_t * phi.sin(),
        r * theta.cos(),
    )' '    Point3f::new(r, theta_cdeg as f32 * 0.01_f32, phi_cdeg as f32 * 0.01_f32)'
}

# Builds $original as the crate threecrate_io, or under another name. Its stand-in finds the original
# beside itself.
build_original() {
    local name=${1:-threecrate_io}
    mkdir -p "$target/$name"
    printf '%s\n' "$original" >"$target/$name/lidar.rs"
    cp -f compare/stand-ins/threecrate_io.rs "$target/$name/"
    build --crate-type rlib --crate-name byteorder compare/stand-ins/byteorder.rs
    build --crate-type rlib --crate-name threecrate_core compare/stand-ins/threecrate_core.rs
    # Warnings about the original are not ours to act on.
    build --crate-type rlib --crate-name "$name" --cap-lints allow \
        --extern byteorder="$target/libbyteorder.rlib" \
        --extern threecrate_core="$target/libthreecrate_core.rlib" "$target/$name/threecrate_io.rs"
}
