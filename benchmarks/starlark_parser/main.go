// Reads files with the Starlark parser of Go, comments kept, and says how many it could read. It writes nothing else.
package main

import (
	"fmt"
	"os"

	"go.starlark.net/syntax"
)

func main() {
	read := 0
	for _, name := range os.Args[1:] {
		if _, err := syntax.Parse(name, nil, syntax.RetainComments); err == nil {
			read++
		}
	}
	fmt.Println(read, "of", len(os.Args)-1)
}
