# A refusal has a number, which programs print, and a name
refusal Gap = refused 1 Gap
refusal Forgotten = refused 2 Forgotten
refusal WindowFull = refused 3 WindowFull
refusal Mismatch = refused 4 Mismatch
refusal NoElement = refused 5 NoElement
refusal NotAnswered = refused 6 NotAnswered
refusal JournalFull = refused 7 JournalFull
refusal Device = refused 8 Device
refusal Failed = refused 9 Failed
refusal NoMemory = refused 10 NoMemory
refusal TraceFull = refused 11 TraceFull
refusal WrongLength = refused 12 WrongLength
refusal NoHeader = refused 13 NoHeader
refusal BadHeader = refused 14 BadHeader
refusal BadPage = refused 15 BadPage
refusal BadRecord = refused 16 BadRecord
refusal BadLimits = refused 17 BadLimits
refusal BadScript = refused 18 BadScript
refusal Stalled = refused 19 Stalled
refusal OffPlan = refused 20 OffPlan
refusal OldVersion = refused 21 OldVersion
refusal NotBlank = refused 22 NotBlank
refusal BadPlan = refused 23 BadPlan
refusal PaneGone = refused 24 PaneGone

# A memory has 1 to 1,048,576 cells, 1 to 64 elements, and 16 to 4,096 slots of its journal
limits 4096 16 256 = 4096 16 256
limits 1 1 16 = 1 1 16
limits 1048576 64 4096 = 1048576 64 4096
-- Cells
limits 0 16 256 = none
limits 1048577 16 256 = none
limits 4294967295 16 256 = none
-- Elements
limits 4096 0 256 = none
limits 4096 65 256 = none
limits 4096 65535 256 = none
-- Slots
limits 4096 16 15 = none
limits 4096 16 4097 = none
limits 4096 16 0 = none
