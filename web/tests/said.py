"""What a group cannot do here is said in one line, which the gate counts."""
import os, subprocess

ROOT = os.path.dirname(os.path.dirname(os.path.dirname(os.path.abspath(__file__))))


def left_out(what):
    subprocess.run([os.path.join(ROOT, 'tools', 'left-out'), what], check=True)
