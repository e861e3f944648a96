package pidtab

// #include <pidtab.h>
import "C"

import "unsafe"

// The room for a first try of a whole text, in bytes.
const shortText = 4096

// answer is what the library writes to a line. It is given the line, its length, the room for each answer, and the place for its size.
func answer(line string, write func(unsafe.Pointer, C.size_t, unsafe.Pointer, *C.size_t) C.uint32_t) (string, error) {
	bytes := withByte(line)
	var answer [C.PIDTAB_LONGEST_ANSWER]C.uint8_t
	var size C.size_t
	status := write(unsafe.Pointer(&bytes[0]), C.size_t(len(line)), unsafe.Pointer(&answer[0]), &size)
	return written(status, answer[:], size)
}

// wholeText is the list, or the text of a table, that the library writes. It is given the room, how long that is, and the place for the size; where the room was too short, it is
// asked again with as much as it said.
func wholeText(write func(unsafe.Pointer, C.size_t, *C.size_t) C.uint32_t) (string, error) {
	size := C.size_t(shortText)
	for {
		room := make([]C.uint8_t, size)
		status := write(unsafe.Pointer(&room[0]), C.size_t(len(room)), &size)
		if status == C.PIDTAB_NO_ROOM {
			continue
		}
		return written(status, room, size)
	}
}

// written is the text that the library wrote at the front of the room, if it did.
func written(status C.uint32_t, room []C.uint8_t, size C.size_t) (string, error) {
	if err := faultOf(uint32(status)); err != nil {
		return "", err
	}
	return text(room[:size]), nil
}

// text is what the bytes say.
func text(bytes []C.uint8_t) string {
	said := make([]byte, len(bytes))
	for i, it := range bytes {
		said[i] = byte(it)
	}
	return string(said)
}

// readListOf is what a list says, if there is one.
func readListOf(list string, err error) (Listing, error) {
	if err != nil {
		return Listing{}, err
	}
	return ReadList(list)
}
