// Reads an interface as Go's kin-openapi does, whose patterns are those of RE2, for runs/examples:
//
//	GO111MODULE=off GOPATH=/usr/share/gocode go build -o PROGRAM runs/interface.go
//	PROGRAM INTERFACE
//
// It ends with status 0, or with 1 and a line that says what is wrong. Needed: Debian's golang-go and
// golang-github-getkin-kin-openapi-dev.
package main

import (
	"context"
	"fmt"
	"os"

	"github.com/getkin/kin-openapi/openapi3"
)

func main() {
	found, wrong := openapi3.NewLoader().LoadFromFile(os.Args[1])
	if wrong == nil {
		wrong = found.Validate(context.Background())
	}
	if wrong != nil {
		fmt.Println(wrong)
		os.Exit(1)
	}
}
