package client

// #include <coniks_core.h>
import "C"

import "example.org/coniks"

// Succeeded is a client of the directory that goes on, and the entries of the client before it that are void: those after the last epoch.
type Succeeded struct {
	Client *Client
	Void   [][]byte
}

// Succeed returns a client of the directory that a succession of this one's policy names, which watches the same name. The settings are
// those of the next client, and the entry is the first one of the next chain that counts. This client stays as it is: if an entry is void,
// keep one with the succession, and tell the user. A client that has only the digest of its policy knows no successor key.
func (c *Client) Succeed(succession coniks.Succession, settings Settings, entry []byte) (*Succeeded, error) {
	defer c.locked()()
	next, err := New(settings)
	if err != nil {
		return nil, err
	}
	defer next.locked()()
	place, err := next.goOn(c.memory, c.succession(succession), entry)
	if err != nil {
		return nil, err
	}
	it := &Succeeded{Client: next}
	for place++; place < c.memory.count(); place++ {
		it.Void = append(it.Void, c.memory.entryAt(place))
	}
	return it, nil
}

// goOn goes on after a client whose chain ended, and returns the place of its last epoch.
func (c *Client) goOn(ended *memory, succession C.coniks_succession, given []byte) (place int, err error) {
	var in arena
	defer in.free()
	entry := in.bytes(given)
	now, err := c.clock.now()
	if err != nil {
		return 0, err
	}
	status, place := c.memory.succeed(ended, succession, c.received(entry, seconds(now)))
	if status == 0 {
		return place, nil
	}
	refused := refusal(Cause(status))
	if refused.Cause == OtherPolicy || refused.Cause == Malformed {
		refused.Evidence, err = alone(entry)
	}
	if err != nil {
		return 0, err
	}
	return 0, refused
}
