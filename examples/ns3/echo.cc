// UDP echo between two nodes of ns-3 over a virtually concatenated group: 45 round trips of 1,000 octets, one each 20.03 ms.
//
//   echo --program=$(./vcat --program live) [--lines=1] [--delay=40] [--pass=1] [--keep=PREFIX]
//
// The status is 0 if all came back.
#include "live_channel.h"

#include "ns3/applications-module.h"
#include "ns3/internet-module.h"

#include <algorithm>
#include <iomanip>
#include <iostream>

using namespace ns3;

namespace
{

std::vector<Time> g_sent;
std::vector<double> g_trips; // milliseconds

void Sent(Ptr<const Packet>)
{
    g_sent.push_back(Simulator::Now());
}

// Echoes come back in their order.
void CameBack(Ptr<const Packet>)
{
    g_trips.push_back((Simulator::Now() - g_sent[g_trips.size()]).GetMicroSeconds() / 1000.0);
}

std::string Configuration(int lines, int delay)
{
    std::ostringstream text;
    text << "container vc3\nlines " << lines << "\ndelays";
    for (int line = 0; line < lines; line++)
    {
        text << " " << delay;
    }
    text << "\nring 1\nlag " << (17 + delay + 15) / 16 << "\nticks 100000000\n";
    return text.str();
}

} // namespace

int main(int argc, char* argv[])
{
    std::string program;
    std::string prefix;
    int lines = 1;
    int delay = 40;
    uint64_t ticks = 1;
    CommandLine command;
    command.AddValue("program", "the path of the program that answers live", program);
    command.AddValue("lines", "lines of each way, VC-3s", lines);
    command.AddValue("delay", "the delay of each line in ticks of 125 us", delay);
    command.AddValue("pass", "the ticks that pass in an event", ticks);
    command.AddValue("keep", "the prefix of the text that is kept", prefix);
    command.Parse(argc, argv);

    NodeContainer nodes(2);
    Ptr<LiveChannel> channel = CreateObject<LiveChannel>(program, Configuration(lines, delay), lines, prefix, ticks);
    NetDeviceContainer devices = SimpleNetDeviceHelper().Install(nodes, channel);
    for (uint32_t i = 0; i < devices.GetN(); i++)
    {
        devices.Get(i)->SetMtu(1500);
    }
    InternetStackHelper().Install(nodes);
    Ipv4AddressHelper addresses("10.78.0.0", "255.255.255.0");
    Ipv4InterfaceContainer interfaces = addresses.Assign(devices);
    NeighborCacheHelper().PopulateNeighborCache();

    UdpEchoServerHelper(9).Install(nodes.Get(1));
    UdpEchoClientHelper helper(interfaces.GetAddress(1), 9);
    helper.SetAttribute("MaxPackets", UintegerValue(45));
    helper.SetAttribute("Interval", TimeValue(MicroSeconds(20030)));
    helper.SetAttribute("PacketSize", UintegerValue(1000));
    ApplicationContainer client = helper.Install(nodes.Get(0));
    client.Start(MilliSeconds(100)); // the members are in use by then
    client.Get(0)->TraceConnectWithoutContext("Tx", MakeCallback(&Sent));
    client.Get(0)->TraceConnectWithoutContext("Rx", MakeCallback(&CameBack));

    Simulator::Stop(MilliSeconds(1100)); // behind the last round trip
    Simulator::Run();
    std::cout << channel->End() << channel->GetRefused() << " refused, " << channel->GetWrongFcs() << " with a wrong FCS\n";
    std::cout << g_trips.size() << " of " << g_sent.size() << " came back";
    if (!g_trips.empty())
    {
        std::sort(g_trips.begin(), g_trips.end());
        std::cout << std::fixed << std::setprecision(3) << ", within " << g_trips.front() << " to " << g_trips.back() << " ms, half of them within "
                  << g_trips[g_trips.size() / 2];
    }
    std::cout << "\n";
    Simulator::Destroy();
    return g_trips.size() == g_sent.size() ? 0 : 1;
}
