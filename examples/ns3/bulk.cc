// As much TCP from one node of ns-3 to another as a virtually concatenated group takes in 0.4 s: one VC-3, delay 5.
//
//   bulk --program=$(./vcat --program live) [--keep=PREFIX]
//
// The last line is the goodput of each tenth of a second, without the first, which has no traffic.
#include "live_channel.h"

#include "ns3/applications-module.h"
#include "ns3/internet-module.h"

#include <array>
#include <iomanip>
#include <iostream>

using namespace ns3;

namespace
{

std::array<uint64_t, 5> g_octets; // of each 800 rows, a tenth of a second

// Five ticks of delay and its own have passed since a row began.
void Received(Ptr<const Packet> packet, const Address&)
{
    int64_t row = Simulator::Now().GetMicroSeconds() / 125 - 6;
    g_octets.at(row / 800) += packet->GetSize();
}

} // namespace

int main(int argc, char* argv[])
{
    std::string program;
    std::string prefix;
    CommandLine command;
    command.AddValue("program", "the path of the program that answers live", program);
    command.AddValue("keep", "the prefix of the text that is kept", prefix);
    command.Parse(argc, argv);

    NodeContainer nodes(2);
    std::string configuration = "container vc3\nlines 1\ndelays 5\nring 1\nlag 2\nticks 100000000\n";
    Ptr<LiveChannel> channel = CreateObject<LiveChannel>(program, configuration, 1, prefix, 1);
    NetDeviceContainer devices = SimpleNetDeviceHelper().Install(nodes, channel);
    for (uint32_t i = 0; i < devices.GetN(); i++)
    {
        devices.Get(i)->SetMtu(1500);
    }
    InternetStackHelper().Install(nodes);
    Ipv4AddressHelper addresses("10.78.0.0", "255.255.255.0");
    Ipv4InterfaceContainer interfaces = addresses.Assign(devices);
    NeighborCacheHelper().PopulateNeighborCache();

    // With 70 octets of headers and FCS a segment makes a frame of 1,518.
    Config::SetDefault("ns3::TcpSocket::SegmentSize", UintegerValue(1448));
    PacketSinkHelper sink("ns3::TcpSocketFactory", InetSocketAddress(Ipv4Address::GetAny(), 9));
    sink.Install(nodes.Get(1)).Get(0)->TraceConnectWithoutContext("Rx", MakeCallback(&Received));
    BulkSendHelper source("ns3::TcpSocketFactory", InetSocketAddress(interfaces.GetAddress(1), 9));
    source.Install(nodes.Get(0)).Start(MilliSeconds(100)); // the members are in use by then

    Simulator::Stop(MicroSeconds(4005 * 125 + 1)); // behind row 3,999
    Simulator::Run();
    std::cout << channel->End() << channel->GetRefused() << " refused, " << channel->GetWrongFcs() << " with a wrong FCS\n";
    for (std::size_t tenth = 1; tenth < g_octets.size(); tenth++)
    {
        std::cout << std::fixed << std::setprecision(2) << g_octets[tenth] * 80 / 1e6 << " ";
    }
    std::cout << "Mbit/s\n";
    Simulator::Destroy();
}
