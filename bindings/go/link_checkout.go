//go:build !pkgconfig

package pidtab

// The header of the built library comes before that of the sources, with which go vet does where nothing is built. Go keeps the warning, so
// it says when it was true.

/*
#cgo CFLAGS: -I${SRCDIR}/../../out -I${SRCDIR}/../c
#cgo LDFLAGS: ${SRCDIR}/../../out/libpidtab.a
#if !__has_include(<libpidtab.a>)
#warning there was no out/libpidtab.a when this was compiled: `make lib` builds it, and `go clean -cache` ends this warning then
#endif
*/
import "C"
