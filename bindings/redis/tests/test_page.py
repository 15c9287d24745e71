"""The commands of the README make a cluster."""
import re
import shutil
import subprocess
import tempfile
import unittest
from pathlib import Path

from servers import MODULE, SERVER, free_port

PAGE = Path(__file__).parent.parent / "README.md"
CLI = SERVER.replace("-server", "-cli")


class Page(unittest.TestCase):
    @unittest.skipUnless(shutil.which(CLI), f"there is no {CLI}")
    def test_cluster(self) -> None:
        """As they stand, but for the ports, and the module's place."""
        block = re.search(r"\n## A cluster\n\n```sh\n(.*?)```", PAGE.read_text(), re.DOTALL)
        assert block is not None
        commands = block[1].replace("$PWD/bindings/redis/out/ordered_map.so", str(MODULE))
        commands = commands.replace("redis-server", SERVER).replace("redis-cli", CLI)
        ports = {port: str(free_port()) for port in ("7001", "7002", "7003")}
        for port, other in ports.items():
            commands = re.sub(rf"\b{port}\b", other, commands)
        with tempfile.TemporaryDirectory(prefix="ordered_map_") as folder:
            try:
                said = subprocess.run(["bash", "-ec", commands], cwd=folder, capture_output=True, text=True, timeout=120)
                self.assertEqual((said.returncode, said.stdout.split("\n")[-2:]), (0, ["1", ""]), said.stdout + said.stderr)
            finally:
                for port in ports.values():
                    subprocess.run([CLI, "-p", port, "shutdown", "nosave"], capture_output=True, timeout=60)


if __name__ == "__main__":
    unittest.main()
