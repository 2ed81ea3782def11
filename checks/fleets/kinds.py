"""All trials: of which kind each is, and what happens in it."""
from __future__ import annotations

from dataclasses import replace

from cases import DeviceTrial, FullTrial, HostileTrial, LongTrial, LoseTrial, OddTrial, PartsTrial, PoisonTrial, RestartTrial
from doors import DoorTrial
from ends import EndTrial, MetricsTrial
from parts import AgainTrial, CutTrial, FollowTrial, KeptTrial, LapsedTrial, LeaseTrial, MisreadTrial, RogueTrial
from trials import Plan

KINDS = {"odd": OddTrial, "device": DeviceTrial, "restarted": RestartTrial, "lost": LoseTrial, "hostile": HostileTrial,
         "poison": PoisonTrial, "full": FullTrial, "ends": EndTrial, "metrics": MetricsTrial, "long": LongTrial, "follow": FollowTrial,
         "lapsed": LapsedTrial, "cut": CutTrial, "misread": MisreadTrial, "kept": KeptTrial, "leases": LeaseTrial, "again": AgainTrial,
         "rogue": RogueTrial, "door": DoorTrial, "parts": PartsTrial}
CALM = Plan("never", strikes=0)
SLOW = Plan("slow", partitions=1, instances=300, past=300, strikes=1)
GAP = Plan("gap", partitions=1, instances=300, past=300, strikes=1)
ASLEEP = Plan("asleep", partitions=1, strikes=2)
KEPT = Plan("kept", partitions=1, workers=1, clients=1, past=30, strikes=1)
FOLLOW = Plan("follow", partitions=1, past=100, instances=100, strikes=1)
LAPSED = Plan("lapsed", partitions=1, workers=2, clients=1, past=100, strikes=1)
LEASES = Plan("late", workers=2, clients=1, lease=60.0, strikes=1)
AGAIN = replace(CALM, partitions=1, workers=1, clients=1, lease=60.0)
MISREAD = replace(CALM, clients=1)
HOSTILE = replace(CALM, others=("evil",))
POISON = replace(CALM, others=("evil",), instances=30)
LOST = Plan("killed", strikes=2)
DEVICE = Plan("killed", clients=3, strikes=2)
DOOR = Plan("killed", strikes=2)
PLANS = {name: Plan(name) for name in ("taken", "stepped", "appended", "settled", "killed", "mute", "broken")}
PLANS |= {"hostless": Plan("hostless", strikes=2), "replay": Plan("replay", partitions=1, past=40), "asleep": ASLEEP, "rogue": Plan("rogue", workers=4), "cut": Plan("cut", strikes=2), "slow": SLOW,
          "gap": GAP, "kept": KEPT, "follow": FOLLOW, "lapsed": LAPSED, "leases": LEASES, "again": AGAIN, "misread": MISREAD, "hostile": HOSTILE,
          "poison": POISON, "full": replace(CALM, waiting=20, others=("early",)), "ends": CALM,
          "metrics": replace(CALM, partitions=1, lease=6.0), "door": DOOR}
PLANS_OF = {
    "NATS": {"odd": Plan("short", clients=1, strikes=0), "lost": LOST,
             "forgotten": Plan("forgotten", partitions=1, instances=300, past=300, strikes=1)},
    "PostgreSQL": {"long": replace(CALM, partitions=1, clients=1, past=200), "parts": replace(CALM, partitions=1)}}
RESTARTED = {"restarted": Plan("killed", partitions=1, requests=100, strikes=6, past=40)}
