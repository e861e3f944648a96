//go:build pkgconfig

package pidtab

// #cgo pkg-config: pidtab
import "C"
