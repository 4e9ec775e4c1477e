// The library go-gh of the command `gh`: its function for URLs of remotes, `ParseURL`, which is copied beside this when it is built.
package main

func read(text string) (parts, error) {
	it, err := ParseURL(text)
	if err != nil {
		return nil, err
	}
	return partsOf(it), nil
}
