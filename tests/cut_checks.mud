# A check of a script that is cut behind each of its bytes: nothing of its report is written. The cases were written by a loop.
words: check
status: 2
--- /secure/master.c "int f( {"
--- play
connect 1
end
--- written

=== cut_behind_0_bytes
cut: 0
--- told
at byte 0 of the script

=== cut_behind_1_byte
cut: 1
--- told
at byte 0 of the script

=== cut_behind_2_bytes
cut: 2
--- told
at byte 0 of the script

=== cut_behind_3_bytes
cut: 3
--- told
at byte 0 of the script

=== cut_behind_4_bytes
cut: 4
--- told
at byte 0 of the script

=== cut_behind_5_bytes
cut: 5
--- told
at byte 0 of the script

=== cut_behind_6_bytes
cut: 6
--- told
at byte 0 of the script

=== cut_behind_7_bytes
cut: 7
--- told
at byte 0 of the script

=== cut_behind_8_bytes
cut: 8
--- told
at byte 0 of the script

=== cut_behind_9_bytes
cut: 9
--- told
at byte 0 of the script

=== cut_behind_10_bytes
cut: 10
--- told
at byte 0 of the script

=== cut_behind_11_bytes
cut: 11
--- told
at byte 0 of the script

=== cut_behind_12_bytes
cut: 12
--- told
at byte 0 of the script

=== cut_behind_13_bytes
cut: 13
--- told
at byte 0 of the script

=== cut_behind_14_bytes
cut: 14
--- told
at byte 0 of the script

=== cut_behind_15_bytes
cut: 15
--- told
at byte 0 of the script

=== cut_behind_16_bytes
cut: 16
--- told
at byte 16 of the script

=== cut_behind_17_bytes
cut: 17
--- told
at byte 16 of the script

=== cut_behind_18_bytes
cut: 18
--- told
at byte 16 of the script

=== cut_behind_19_bytes
cut: 19
--- told
at byte 16 of the script

=== cut_behind_20_bytes
cut: 20
--- told
at byte 16 of the script

=== cut_behind_21_bytes
cut: 21
--- told
at byte 16 of the script

=== cut_behind_22_bytes
cut: 22
--- told
at byte 16 of the script

=== cut_behind_23_bytes
cut: 23
--- told
at byte 16 of the script

=== cut_behind_24_bytes
cut: 24
--- told
at byte 16 of the script

=== cut_behind_25_bytes
cut: 25
--- told
at byte 16 of the script

=== cut_behind_26_bytes
cut: 26
--- told
at byte 16 of the script

=== cut_behind_27_bytes
cut: 27
--- told
at byte 16 of the script

=== cut_behind_28_bytes
cut: 28
--- told
at byte 16 of the script

=== cut_behind_29_bytes
cut: 29
--- told
at byte 16 of the script

=== cut_behind_30_bytes
cut: 30
--- told
at byte 16 of the script

=== cut_behind_31_bytes
cut: 31
--- told
at byte 16 of the script

=== cut_behind_32_bytes
cut: 32
--- told
at byte 16 of the script

=== cut_behind_33_bytes
cut: 33
--- told
at byte 16 of the script

=== cut_behind_34_bytes
cut: 34
--- told
at byte 16 of the script

=== cut_behind_35_bytes
cut: 35
--- told
at byte 16 of the script

=== cut_behind_36_bytes
cut: 36
--- told
at byte 16 of the script

=== cut_behind_37_bytes
cut: 37
--- told
at byte 16 of the script

=== cut_behind_38_bytes
cut: 38
--- told
at byte 16 of the script

=== cut_behind_39_bytes
cut: 39
--- told
at byte 16 of the script

=== cut_behind_40_bytes
cut: 40
--- told
at byte 16 of the script

=== cut_behind_41_bytes
cut: 41
--- told
at byte 16 of the script

=== cut_behind_42_bytes
cut: 42
--- told
at byte 16 of the script

=== cut_behind_43_bytes
cut: 43
--- told
at byte 16 of the script

=== cut_behind_44_bytes
cut: 44
--- told
at byte 16 of the script

=== cut_behind_45_bytes
cut: 45
--- told
at byte 16 of the script

=== cut_behind_46_bytes
cut: 46
--- told
at byte 16 of the script

=== cut_behind_47_bytes
cut: 47
--- told
at byte 16 of the script

=== cut_behind_48_bytes
cut: 48
--- told
at byte 16 of the script

=== cut_behind_49_bytes
cut: 49
--- told
at byte 49 of the script

=== cut_behind_50_bytes
cut: 50
--- told
at byte 49 of the script

=== cut_behind_51_bytes
cut: 51
--- told
at byte 49 of the script

=== cut_behind_52_bytes
cut: 52
--- told
at byte 49 of the script

=== cut_behind_53_bytes
cut: 53
--- told
at byte 49 of the script

=== cut_behind_54_bytes
cut: 54
--- told
at byte 49 of the script

=== cut_behind_55_bytes
cut: 55
--- told
at byte 55 of the script

=== cut_behind_56_bytes
cut: 56
--- told
at byte 55 of the script

=== cut_behind_57_bytes
cut: 57
--- told
at byte 55 of the script

=== cut_behind_58_bytes
cut: 58
--- told
at byte 55 of the script

=== cut_behind_59_bytes
cut: 59
--- told
at byte 55 of the script

=== cut_behind_60_bytes
cut: 60
--- told
at byte 55 of the script

=== cut_behind_61_bytes
cut: 61
--- told
at byte 55 of the script

=== cut_behind_62_bytes
cut: 62
--- told
at byte 55 of the script

=== cut_behind_63_bytes
cut: 63
--- told
at byte 55 of the script

=== cut_behind_64_bytes
cut: 64
--- told
at byte 55 of the script

=== cut_behind_65_bytes
cut: 65
--- told
at byte 65 of the script

=== cut_behind_66_bytes
cut: 66
--- told
at byte 65 of the script

=== cut_behind_67_bytes
cut: 67
--- told
at byte 65 of the script

=== cut_behind_68_bytes
cut: 68
--- told
at byte 65 of the script
