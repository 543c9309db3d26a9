package coniks

import (
	"encoding/hex"
	"errors"
	"fmt"
	"regexp"
	"strconv"
)

// Succession ends the chain of one policy, and names the directory that goes on. docs/FORMATS.md defines its text. Nothing of it is
// verified: client.Client.Succeed does that.
type Succession struct {
	// Policy is the digest of the policy that ends, and Last the last head of its chain.
	Policy [32]byte
	Last   Head
	// NextPolicy is the digest of the policy that goes on, and First the first head of its chain that counts.
	NextPolicy [32]byte
	First      Head
	// Signature is over the Lines, by the successor key of the policy that ends.
	Signature [64]byte
}

var successionText = regexp.MustCompile(`^succession coniks-1
policy ([0-9a-f]{64})
last-epoch ([1-9][0-9]{0,19})
last-link ([0-9a-f]{64})
next-policy ([0-9a-f]{64})
first-epoch ([1-9][0-9]{0,19})
first-link ([0-9a-f]{64})
signature ([0-9a-f]{128})
$`)

// ReadSuccession returns what a succession says. It returns an error for any other bytes.
func ReadSuccession(text []byte) (it Succession, err error) {
	none := errors.New("this is no succession of docs/FORMATS.md: take the bytes that its directory publishes")
	found := successionText.FindSubmatch(text)
	if found == nil {
		return it, none
	}
	for at, to := range map[int][]byte{1: it.Policy[:], 3: it.Last.Link[:], 4: it.NextPolicy[:], 6: it.First.Link[:], 7: it.Signature[:]} {
		hex.Decode(to, found[at])
	}
	for at, number := range map[int]*uint64{2: &it.Last.Epoch, 5: &it.First.Epoch} {
		if *number, err = strconv.ParseUint(string(found[at]), 10, 64); err != nil {
			return Succession{}, none
		}
	}
	if it.Policy == it.NextPolicy {
		return Succession{}, none
	}
	return it, nil
}

// Lines returns the lines that the signature is over.
func (s Succession) Lines() []byte {
	ends := fmt.Sprintf("policy %x\nlast-epoch %d\nlast-link %x\n", s.Policy, s.Last.Epoch, s.Last.Link)
	goesOn := fmt.Sprintf("next-policy %x\nfirst-epoch %d\nfirst-link %x\n", s.NextPolicy, s.First.Epoch, s.First.Link)
	return []byte("succession coniks-1\n" + ends + goesOn)
}
