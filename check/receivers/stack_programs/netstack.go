// gVisor's netstack as the inside host: see replay.h. It is that of Debian's package
// golang-gvisor-gvisor-dev, without the sandbox.
package main

/*
#cgo CFLAGS: -O2 -DREPLAY_MAIN=replay_main -DSTACK_FORKS=0
#define STACK_IN_GO
#include "replay.h"
int replay_main(int, char **);
static void read_octets(void *at, size_t length) { app_read(at, length); }
static void on_wire(void *at, size_t length) { wire(at, length); }
*/
import "C"

import (
	"bytes"
	"fmt"
	"os"
	"runtime"
	"unsafe"

	"gvisor.dev/gvisor/pkg/bufferv2"
	"gvisor.dev/gvisor/pkg/tcpip"
	"gvisor.dev/gvisor/pkg/tcpip/faketime"
	"gvisor.dev/gvisor/pkg/tcpip/header"
	"gvisor.dev/gvisor/pkg/tcpip/link/channel"
	"gvisor.dev/gvisor/pkg/tcpip/network/ipv4"
	"gvisor.dev/gvisor/pkg/tcpip/stack"
	"gvisor.dev/gvisor/pkg/tcpip/transport/tcp"
	"gvisor.dev/gvisor/pkg/waiter"
)

var (
	host       *stack.Stack
	link       *channel.Endpoint
	ends       C.struct_tuple
	listener   tcpip.Endpoint // Of a listening host.
	connecting tcpip.Endpoint // Of one that opens.
	live       tcpip.Endpoint
	ended      bool
	shut       bool
)

func must(err tcpip.Error) {
	if err != nil {
		panic(err.String())
	}
}

func address(number C.uint32_t, port C.uint16_t) tcpip.FullAddress {
	octets := []byte{byte(number >> 24), byte(number >> 16), byte(number >> 8), byte(number)}
	return tcpip.FullAddress{NIC: 1, Addr: tcpip.Address(octets), Port: uint16(port)}
}

func endpoint() tcpip.Endpoint {
	made, err := host.NewEndpoint(tcp.ProtocolNumber, ipv4.ProtocolNumber, new(waiter.Queue))
	must(err)
	must(made.Bind(address(ends.inside, ends.inport)))
	return made
}

//export stack_start
func stack_start(tuple *C.struct_tuple, listens C.int) {
	if host != nil {
		host.Close()
	}
	ends, listener, connecting, live, ended, shut = *tuple, nil, nil, nil, false, false
	host = stack.New(stack.Options{
		NetworkProtocols:   []stack.NetworkProtocolFactory{ipv4.NewProtocol},
		TransportProtocols: []stack.TransportProtocolFactory{tcp.NewProtocol},
		Clock:              faketime.NewManualClock(),
	})
	size := tcpip.TCPReceiveBufferSizeRangeOption{Min: 4096, Default: 1 << 24, Max: 1 << 24}
	must(host.SetTransportProtocolOption(tcp.ProtocolNumber, &size))
	fixed, sack := tcpip.TCPModerateReceiveBufferOption(false), tcpip.TCPSACKEnabled(true)
	must(host.SetTransportProtocolOption(tcp.ProtocolNumber, &fixed))
	must(host.SetTransportProtocolOption(tcp.ProtocolNumber, &sack))
	link = channel.New(4096, 1500, "")
	must(host.CreateNIC(1, link))
	inside := tcpip.ProtocolAddress{
		Protocol:          ipv4.ProtocolNumber,
		AddressWithPrefix: address(ends.inside, 0).Addr.WithPrefix(),
	}
	must(host.AddProtocolAddress(1, inside, stack.AddressProperties{}))
	host.SetRouteTable([]tcpip.Route{{Destination: header.IPv4EmptySubnet, NIC: 1}})
	if listens != 0 {
		listener = endpoint()
		must(listener.Listen(16))
	}
}

// settle waits until the stack has worked on all packets, and reads what the application can read.
func settle() {
	host.Pause()
	host.Resume()
	for sent := link.Read(); !sent.IsNil(); sent = link.Read() {
		octets := bytes.Join(sent.AsSlices(), nil)
		C.on_wire(unsafe.Pointer(&octets[0]), C.size_t(len(octets)))
		sent.DecRef()
	}
	if live == nil && listener != nil {
		if accepted, _, err := listener.Accept(nil); err == nil {
			opened(accepted)
		}
	}
	if live == nil && connecting != nil && tcp.EndpointState(connecting.State()) == tcp.StateEstablished {
		opened(connecting)
		connecting = nil
	}
	for live != nil && !ended {
		var octets bytes.Buffer
		_, err := live.Read(&octets, tcpip.ReadOptions{})
		if octets.Len() > 0 {
			C.read_octets(unsafe.Pointer(&octets.Bytes()[0]), C.size_t(octets.Len()))
		}
		if _, waits := err.(*tcpip.ErrWouldBlock); waits {
			return
		}
		if _, closed := err.(*tcpip.ErrClosedForReceive); closed {
			ended = true
			C.app_ended()
		} else if err != nil {
			live = nil
		}
	}
}

func opened(one tcpip.Endpoint) {
	live, ended = one, false
	C.app_opened()
	if shut {
		live.Shutdown(tcpip.ShutdownWrite)
	}
}

//export stack_connect
func stack_connect() {
	connecting = endpoint()
	connecting.Connect(address(ends.outside, ends.outport)) // Always "in progress".
	settle()
}

//export stack_input
func stack_input(packet *C.uint8_t, length C.size_t) {
	octets := C.GoBytes(unsafe.Pointer(packet), C.int(length))
	arrived := stack.NewPacketBuffer(stack.PacketBufferOptions{Payload: bufferv2.MakeWithData(octets)})
	link.InjectInbound(ipv4.ProtocolNumber, arrived)
	arrived.DecRef()
	settle()
}

//export stack_shut
func stack_shut() {
	shut = true
	if live != nil {
		live.Shutdown(tcpip.ShutdownWrite)
		settle()
	}
}

//export stack_abort
func stack_abort() {
	if live != nil {
		live.Abort()
		live = nil
	}
	settle()
}

func main() {
	runtime.GOMAXPROCS(1)
	words := make([]*C.char, len(os.Args)+1)
	for i, word := range os.Args {
		words[i] = C.CString(word)
	}
	status := C.replay_main(C.int(len(os.Args)), &words[0])
	if status != 0 {
		fmt.Fprintln(os.Stderr, "ended with", status)
	}
	os.Exit(int(status))
}
