"""How long the built program takes on large inputs."""
