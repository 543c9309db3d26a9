package coniks

// PackageVersion is the version of this package. Version returns that of the library.
const PackageVersion = "1.0.0"
