// A channel of ns-3 between two devices whose frames go through a virtually concatenated group, a process `live pair`.
//
// A frame is said when a device sends it. Each `ticks` ticks of 125 microseconds an event lets as many pass in both ways, and hands the frames that come
// out to the other device. A packet becomes octets and a packet again, so it loses its tags.
#ifndef LIVE_CHANNEL_H
#define LIVE_CHANNEL_H

#include "ns3/core-module.h"
#include "ns3/network-module.h"

#include <charconv>
#include <fcntl.h>
#include <fstream>
#include <poll.h>
#include <spawn.h>
#include <string>
#include <sys/wait.h>
#include <unistd.h>
#include <vector>

// Both ways of a group behind pipes. Neither side waits for a full pipe.
class LivePair
{
  public:
    // Both ways have the same configuration. What is said is kept in a file, if one is named, of which examples/live_script.py makes scripts.
    LivePair(std::string program, const std::string& configuration, const std::string& kept)
    {
        if (!kept.empty())
        {
            m_kept.open(kept);
            NS_ABORT_MSG_UNLESS(m_kept, "the file " << kept << " can't be written");
        }
        // No other process may have these ends, or the text would never end.
        int input[2];
        int output[2];
        NS_ABORT_IF(pipe2(input, O_CLOEXEC) != 0 || pipe2(output, O_CLOEXEC) != 0);
        posix_spawn_file_actions_t actions;
        posix_spawn_file_actions_init(&actions);
        posix_spawn_file_actions_adddup2(&actions, input[0], STDIN_FILENO);
        posix_spawn_file_actions_adddup2(&actions, output[1], STDOUT_FILENO);
        std::string live = "live";
        std::string pair = "pair";
        char* words[] = {program.data(), live.data(), pair.data(), nullptr};
        NS_ABORT_MSG_IF(posix_spawn(&m_process, program.c_str(), &actions, nullptr, words, environ), "there is no program " << program);
        posix_spawn_file_actions_destroy(&actions);
        close(input[0]);
        close(output[1]);
        m_input = input[1];
        m_output = output[0];
        fcntl(m_input, F_SETFL, O_NONBLOCK);
        fcntl(m_output, F_SETFL, O_NONBLOCK);
        m_unsent = configuration + "other\n" + configuration;
        m_kept << m_unsent;
    }

    // Says a line, which is sent once ticks pass.
    void Say(const std::string& line)
    {
        m_unsent += line + "\n";
        m_kept << line << "\n";
    }

    // Lets ticks pass, and gives the answers up to their end.
    std::vector<std::string> Pass(uint64_t ticks)
    {
        Say("pass " + std::to_string(ticks));
        std::vector<std::string> answers;
        while (true)
        {
            std::size_t start = 0;
            for (std::size_t end; (end = m_heard.find('\n', start)) != std::string::npos; start = end + 1)
            {
                answers.push_back(m_heard.substr(start, end - start));
            }
            m_heard.erase(0, start);
            if (!answers.empty() && answers.back().compare(0, 4, "now ") == 0)
            {
                answers.pop_back();
                return answers;
            }
            Exchange();
        }
    }

    // Ends the text, and gives the line of totals of each way.
    std::string End()
    {
        while (!m_unsent.empty())
        {
            Exchange();
        }
        close(m_input);
        fcntl(m_output, F_SETFL, 0);
        char octets[4096];
        for (ssize_t count; (count = read(m_output, octets, sizeof octets)) > 0;)
        {
            m_heard.append(octets, count);
        }
        close(m_output);
        waitpid(m_process, nullptr, 0);
        m_kept.close();
        return m_heard;
    }

  private:
    // Waits until a pipe takes or gives something.
    void Exchange()
    {
        pollfd ends[] = {{m_output, POLLIN, 0}, {m_input, static_cast<short>(m_unsent.empty() ? 0 : POLLOUT), 0}};
        poll(ends, 2, -1);
        if (ends[1].revents & POLLOUT)
        {
            ssize_t count = write(m_input, m_unsent.data(), m_unsent.size());
            m_unsent.erase(0, std::max<ssize_t>(count, 0));
        }
        if (ends[0].revents)
        {
            char octets[65536];
            ssize_t count = read(m_output, octets, sizeof octets);
            NS_ABORT_MSG_IF(count == 0, "a group has ended; on standard error stands why");
            m_heard.append(octets, std::max<ssize_t>(count, 0));
        }
    }

    pid_t m_process;
    int m_input;
    int m_output;
    std::string m_unsent;
    std::string m_heard;
    std::ofstream m_kept;
};

class LiveChannel : public ns3::SimpleChannel
{
  public:
    // Frames go there from the first device to the second. All lines of the configuration are members, each way. With a prefix, what is said is kept in
    // PREFIX.vcat.
    LiveChannel(const std::string& program, const std::string& configuration, int lines, const std::string& prefix, uint64_t ticks)
        : m_pair(program, configuration, prefix.empty() ? "" : prefix + ".vcat"),
          m_ticks(ticks)
    {
        for (int line = 0; line < lines; line++)
        {
            m_pair.Say("add there " + std::to_string(line));
            m_pair.Say("add back " + std::to_string(line));
        }
        Schedule();
    }

    void Send(ns3::Ptr<ns3::Packet> packet,
              uint16_t protocol,
              ns3::Mac48Address to,
              ns3::Mac48Address from,
              ns3::Ptr<ns3::SimpleNetDevice> sender) override
    {
        std::vector<uint8_t> frame(HEADER + std::max(LEAST_PAYLOAD, packet->GetSize()));
        to.CopyTo(&frame[0]);
        from.CopyTo(&frame[6]);
        frame[12] = protocol >> 8;
        frame[13] = protocol & 0xff;
        packet->CopyData(&frame[HEADER], packet->GetSize());
        uint32_t fcs = ns3::CRC32Calculate(frame.data(), frame.size());
        for (int shift = 0; shift < 32; shift += 8)
        {
            frame.push_back(fcs >> shift & 0xff);
        }
        std::string line = GetDevice(0) == sender ? "frame there " : "frame back ";
        for (uint8_t octet : frame)
        {
            line += DIGITS[octet >> 4];
            line += DIGITS[octet & 15];
        }
        m_pair.Say(line);
    }

    // Says a line of the text, for instance `cut there 0`, before the next ticks pass.
    void Say(const std::string& line)
    {
        m_pair.Say(line);
    }

    // Ends the text, and gives the lines of totals.
    std::string End()
    {
        return m_pair.End();
    }

    uint64_t GetRefused() const
    {
        return m_refused;
    }

    uint64_t GetWrongFcs() const
    {
        return m_wrongFcs;
    }

  private:
    static constexpr uint32_t HEADER = 14;
    static constexpr uint32_t LEAST_PAYLOAD = 46;
    static constexpr uint16_t IPV4 = 0x0800;
    static constexpr char DIGITS[] = "0123456789abcdef";

    void Schedule()
    {
        ns3::Simulator::Schedule(ns3::MicroSeconds(125 * m_ticks), &LiveChannel::PassTicks, this);
    }

    void PassTicks()
    {
        for (const std::string& answer : m_pair.Pass(m_ticks))
        {
            if (answer.compare(0, 4, "got ") == 0)
            {
                int receiver = answer.compare(4, 6, "there ") == 0 ? 1 : 0;
                Deliver(answer.substr(answer.rfind(' ') + 1), ns3::DynamicCast<ns3::SimpleNetDevice>(GetDevice(receiver)));
            }
            m_refused += answer.compare(0, 8, "refused ") == 0;
        }
        Schedule();
    }

    void Deliver(const std::string& digits, ns3::Ptr<ns3::SimpleNetDevice> receiver)
    {
        std::vector<uint8_t> frame(digits.size() / 2);
        for (std::size_t i = 0; i < frame.size(); i++)
        {
            std::from_chars(&digits[2 * i], &digits[2 * i] + 2, frame[i], 16);
        }
        std::size_t end = frame.size() - 4;
        uint32_t fcs = frame[end] | frame[end + 1] << 8 | frame[end + 2] << 16 | uint32_t{frame[end + 3]} << 24;
        if (ns3::CRC32Calculate(frame.data(), end) != fcs)
        {
            m_wrongFcs++;
            return;
        }
        ns3::Mac48Address to;
        ns3::Mac48Address from;
        to.CopyFrom(&frame[0]);
        from.CopyFrom(&frame[6]);
        uint16_t protocol = frame[12] << 8 | frame[13];
        std::size_t length = end - HEADER;
        if (protocol == IPV4)
        {
            // What is behind the datagram is padding.
            length = std::min<std::size_t>(length, frame[16] << 8 | frame[17]);
        }
        receiver->Receive(ns3::Create<ns3::Packet>(&frame[HEADER], length), protocol, to, from);
    }

    LivePair m_pair;
    uint64_t m_ticks;
    uint64_t m_refused = 0;
    uint64_t m_wrongFcs = 0;
};

#endif
