#!/usr/bin/env python3
"""Moves the files of laws of the crates whose must-fail edits turn a definition from specs/ to proofs/, statements unchanged.

usage: python3 tools/move_laws.py      at the top of the repository; a second run moves nothing more

The gate reads an edit of a definition as bad where a law in specs/ falls with it and others rest on that law. In proofs/ the law is
refused as it must be. Imports follow: Rattle.label.specs.OrderLaws is Rattle.label.proofs.OrderLaws.
"""

import glob
import os
import re

MOVED = {
    "acceptance": "AcceptLaws ByteLaws FormedRowLaws PairCountLaws RoomLaws RowStepLaws SessionLaws",
    "apply": "Course Canon CombinationLaws FormedLaws GoodLaws OverflowLaws PairLaws RowLaws VisitLaws ZeroLaws",
    "best": "BestLaws LeadLaws NumberLaws OneLaws RefusalLaws Table",
    "contradiction": "AgreeLaws ContradictionLaws ExactLaws Examples JoinLaws StateLaws",
    "cutting": "CoverLaws MatchLaws MovedLaws ReduceLaws TruthLaws",
    "declared": "BackupLaws ClosingLaws GrowthLaws LineLaws NameLaws ReadLaws RegressLaws RewardAgainLaws TextLaws",
    "diagram_form": "FormLaws",
    "discounted": "DiscountedLaws FractionLaws",
    "elimination": "AboveLaws AnswerLaws CaseLaws CountLaws NameLaws RootLaws RowLaws TableLaws",
    "ground": "GroundLaws",
    "label": "ArityLaws LabelLaws OrderLaws RenamingLaws",
    "line_trees": "LineFeedLaws ResolvedLaws TextTreesLaws TreeHeadLaws TreeReadLaws TreeReplyLaws VariableLaws",
    "mdp": "BackupLaws CallLaws CutLaws ExampleLaws RunLaws StepLaws Table ValuedLaws",
    "minimum": "ApartLaws ClosingLaws FreedLaws MinLaws NextLaws NumberLaws OccurLaws PlainLaws ReachLaws RenamedLaws Table",
    "model_laws": "ActionLaws ArityLaws BecomesLaws DeclaringLaws DrawnLaws GrowthLaws HeadLaws PredicateLaws ReadLaws RewardLaws RowLaws SessionLaws VariantLaws WeightLaws",
    "reduction": "CallLaws ClosedLaws CombinationLaws KeepingLaws KindLaws ListLaws ModelLaws OrderLaws ReductionLaws",
    "regression": "CallLaws FreeCallLaws FreeingLaws MovedLaws RegressCallLaws RegressionLaws ResultLaws StepLaws TellsLaws",
    "replay": "AlikeLaws FactLaws LargeLaws ReplayLaws",
    "round_trip": "BuildLaws ExampleLaws KeyNameLaws NameLaws NumberingLaws PlaceLaws RoundTripLaws SessionLaws WrittenLaws",
    "session_laws": "AnswerLaws BlankLaws CaseLaws CountLaws EntryLaws FactLaws HeldLaws KeepLaws MadeLaws MoveLaws OpeningLaws PlaceLaws PrintLaws ReplayLaws ReplyLaws RunLaws ShortLaws StateLaws TableLaws TextLaws TextRunLaws ValueLaws WholeLaws",
    "spread": "ChoiceLaws GroundLaws LeafLaws LentChoiceLaws SpreadLaws Table",
    "state": "HighestLaws LentLaws MaxLaws NextLaws ValueLaws",
    "text_replays": "BeginLaws CheckLaws DeclaredLaws DeclaringLaws DrawingLaws DrawnLaws FoldLaws FollowLaws KeepLaws LineLaws MoveLaws NameLaws ObjectLaws OnceLaws RefusalLaws TextDidLaws TextReplayLaws UndeclaredLaws",
    "text_spreads": "EntryLaws LineLaws RefusalLaws SettledLaws TextSpreadLaws",
    "uniqueness": "CombineLaws FreeLaws OnlyLaws RegressLaws TextLaws ThroughLaws WrittenLaws",
}


def read(path):
    with open(path, encoding="utf-8") as it:
        return it.read()


def write(path, text):
    os.makedirs(os.path.dirname(path), exist_ok=True)
    with open(path, "w", encoding="utf-8") as it:
        it.write(text)


def main():
    for crate, names in MOVED.items():
        if not os.path.isdir(f"crates/{crate}"):
            continue
        names = names.split()
        lib, to = f"crates/{crate}/specs/Lib.antt", f"crates/{crate}/proofs/Lib.antt"
        declared = read(to) if os.path.exists(to) else "-- The laws of the definitions in specs/, and what the proofs cite.\n"
        for name in names:
            old, new = f"crates/{crate}/specs/{name}.antt", f"crates/{crate}/proofs/{name}.antt"
            if os.path.exists(old):
                os.makedirs(os.path.dirname(new), exist_ok=True)
                os.rename(old, new)
            if not re.search(rf"(?m)^(pub )?mod {name}$", declared):
                declared = declared.rstrip("\n") + f"\npub mod {name}\n"
        write(to, declared)
        stays = re.sub(rf"(?m)^pub mod ({'|'.join(names)})\n", "", read(lib))
        write(lib, re.sub(r"(?m)^-- laws\n(?!pub mod)", "", stays))
    path = re.compile(
        r"\bRattle\.(" + "|".join(MOVED) + r")\.specs\.(\w+)\b(?![\w'-])"
    )
    named = {crate: set(names.split()) for crate, names in MOVED.items()}
    turn = lambda m: f"Rattle.{m[1]}.proofs.{m[2]}" if m[2] in named[m[1]] else m[0]
    files = glob.glob("crates/*/specs/**/*.antt", recursive=True) + glob.glob("crates/*/proofs/**/*.antt", recursive=True) + glob.glob("crates/*/src/*.rt")
    for file in files + glob.glob("crates/*/must-fail/*.edit"):
        text = read(file)
        new = path.sub(turn, text)
        if new != text:
            write(file, new)


if __name__ == "__main__":
    main()
