//go:build !pkgconfig

package pidtab

// #cgo CFLAGS: -O2 -pthread
// #cgo LDFLAGS: -pthread
import "C"
